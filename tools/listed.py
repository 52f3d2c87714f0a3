"""The files of the tree, without what is ignored."""
import os
import subprocess


def files(tree, *parts):
    """Their names below these folders of the tree, or below all of it. An archive has no git, though it may lie in a repository of somebody
    else's: there what .gitignore names is passed over."""
    if not os.path.exists(os.path.join(tree, ".git")):
        return list(walked(tree, parts))
    words = ["git", "-C", str(tree), "ls-files", "-co", "--exclude-standard", "-z", *parts]
    try:
        listed = subprocess.run(words, capture_output=True, check=True, text=True).stdout.split("\0")
    except (OSError, subprocess.CalledProcessError):
        listed = list(walked(tree, parts))
    return [name for name in listed if os.path.isfile(os.path.join(tree, name))]


def walked(tree, parts):
    with open(os.path.join(tree, ".gitignore"), encoding="utf-8") as it:
        ignored = {line.strip().rstrip("/") for line in it} | {".git", "__pycache__"}
    for part in parts or [""]:
        top = os.path.join(tree, part)
        if os.path.isfile(top):
            yield part
        for folder, below, names in os.walk(top):
            inside = os.path.relpath(folder, tree)
            below[:] = [name for name in below if name not in ignored and os.path.normpath(f"{inside}/{name}") not in ignored]
            for name in names:
                yield os.path.normpath(f"{inside}/{name}")
