#!/usr/bin/env python3
"""What a fleet of relays runs on, by the files of packaging/: the container, the manifest of Kubernetes, Prometheus with its targets and alerts.

    fleet.py PROGRAM

Where the files have names and ports of a fleet these are of this machine, and free ones. It wants make and readelf, and Debian's python3-yaml,
prometheus and, as root, buildah: what is missing is skipped with a word."""
import concurrent.futures
import contextlib
import functools
import http.client
import itertools
import json
import os
import pathlib
import re
import shutil
import subprocess
import urllib.request

from base import Relay, ends, part, soon
from control import metrics_of, page, told
from net import App, End, free_port
from rtp import plain

try:
    import yaml
except ImportError:
    yaml = None

TREE = pathlib.Path(__file__).resolve().parent.parent.parent
PACKAGING = TREE / "packaging"
HAS = {"libc.so.6", "libm.so.6"}  # what the base of the container has, of what a program may be linked with


def skips(what, *tools):
    """Whether a tool is missing, which is told."""
    lacks = [one for one in tools if not shutil.which(one)]
    if lacks:
        print(f"skipped: {what}: there is no {' and no '.join(lacks)}")
    return lacks


def runs(checks, name, *words, **more):
    """What a command prints that has to succeed."""
    one = subprocess.run(list(map(str, words)), capture_output=True, text=True, timeout=120, **more)
    checks.count(one.returncode == 0, f"{name}: status {one.returncode}: {one.stdout}{one.stderr}")
    return one.stdout


def installed(checks, stage):
    """The prefix below which `make install` has put the program and these files."""
    words = "make", "-s", "programs", "units", "PREFIX=/opt", f"DESTDIR={stage.room}/root", f"RELAY={stage.program}", "PROGRAM=/none"
    runs(checks, "make", *words, cwd=TREE)
    return stage.room / "root/opt"


def container():
    """What the Containerfile copies, by where it is in the container; its entrypoint, and its user."""
    copies, words = {}, {}
    for line in (PACKAGING / "Containerfile").read_text().splitlines():
        word, _, rest = line.partition(" ")
        if word == "COPY":
            source, target = [one for one in rest.split() if not one.startswith("--")]
            copies[target] = source
        words[word] = rest
    return copies, json.loads(words["ENTRYPOINT"]), words["USER"]


def get(host, port, path):
    """A page's text."""
    with contextlib.closing(http.client.HTTPConnection(host, port, timeout=20)) as connection:
        connection.request("GET", path)
        response = connection.getresponse()
        return response.read().decode() if response.status == 200 else ""


@contextlib.contextmanager
def beside(*words):
    """A program that runs meanwhile."""
    with subprocess.Popen(list(map(str, words)), stdin=subprocess.DEVNULL, stdout=subprocess.DEVNULL, stderr=subprocess.DEVNULL) as one:
        try:
            yield one
        finally:
            one.kill()


def kubernetes(checks, stage):
    """The container's program takes the manifest's arguments, listens at its ports and answers its probe and at its annotations; its last command
    ends it."""
    if yaml is None:
        print("skipped: the manifest: there is no python3-yaml")
        return
    spec = yaml.safe_load((PACKAGING / "kubernetes.yaml").read_text())["spec"]
    pod, notes = spec["template"]["spec"], spec["template"]["metadata"]["annotations"]
    (box,), (copies, entry, user) = pod["containers"], container()
    prefix, port, folder = installed(checks, stage), functools.cache(lambda number: free_port()), stage.room / "run"
    folder.mkdir()
    (mount,) = box["volumeMounts"]
    names = {mount["mountPath"] + "/": f"{folder}/", "far.example": "127.0.0.1", **{f"$({one['name']})": "127.0.0.1" for one in box["env"]}}

    def here(word):
        for name, own in names.items():
            word = word.replace(name, own)
        return re.sub(r"(?<=:)\d+$", lambda found: str(port(int(found[0]))), word)

    def asks(command):
        words = [str(prefix / copies[command[0]]), *map(here, command[1:])]
        return subprocess.run(words, capture_output=True, text=True, timeout=60)

    stage.program = str(prefix / copies[entry[0]])
    relay = Relay(stage, *map(here, [*entry[1:], *box["args"]]), log=False)
    ports = {(one["protocol"], port(one["hostPort"]), one["hostPort"] == one["containerPort"]) for one in box["ports"]}
    checks.same(ports, {("UDP", relay.at[1], True), ("TCP", metrics_of(relay)[1], True)}, "the ports")
    # Where two pods want the same ports one waits for ever.
    checks.same((pod["hostNetwork"], spec["replicas"], spec["strategy"]["type"]), (True, 1, "Recreate"), "whose the ports are")
    checks.same(notes["prometheus.io/scrape"], "true", "whether it is scraped")
    checks.count("gozdrit_receive_played_total" in told(get("127.0.0.1", port(int(notes["prometheus.io/port"])), notes["prometheus.io/path"])), "the annotations")
    probe, last = box["livenessProbe"]["exec"]["command"], box["lifecycle"]["preStop"]["exec"]["command"]
    alive = asks(probe)
    checks.count(alive.returncode == 0 and "played" in json.loads(alive.stdout), f"the probe of a relay that runs: {alive}")
    checks.same(asks(last).returncode, 0, "its last command")
    ends(checks, "its last command", relay)
    checks.same(asks(probe).returncode, 1, "the probe of a relay that ended")
    checks.count(spec["selector"]["matchLabels"].items() <= spec["template"]["metadata"]["labels"].items(), "the selector finds no pod")
    checks.same([one["name"] for one in pod["volumes"]], [mount["name"]], "the volumes")
    secure = pod["securityContext"]
    checks.same(f"{secure['runAsUser']}:{secure['runAsGroup']}", user, "the user")


def image(checks, stage):
    """The container has what `make install` makes, and wants no other library than its base has. It is built, on a base with the libraries of this
    machine, and its program runs as its user."""
    prefix, (copies, entry, user) = installed(checks, stage), container()
    for one in copies.values():
        checks.count((prefix / one).is_file(), f"the container wants {one}, which is not installed")
    needs = set(re.findall(r"\(NEEDED\).*\[(.+)\]", runs(checks, "readelf", "readelf", "-d", stage.program)))
    tried = b"__asan_init" in pathlib.Path(stage.program).read_bytes()  # by `rt try`, which links more than what is built
    checks.count(needs <= HAS | {"libgcc_s.so.1"} if tried else needs <= HAS, f"the base lacks what the program is linked with: {needs}")
    if skips("the container", "buildah"):
        return
    if os.geteuid() != 0 or subprocess.run(["unshare", "-m", "true"], stderr=subprocess.DEVNULL, check=False).returncode:
        print("skipped: the container wants the rights of root")
        return
    base, shared, work = (stage.room / one for one in ("base", "shared", "work"))
    for one in set(re.findall(r"/\S+", runs(checks, "ldd", "ldd", stage.program))):
        to = base / one[1:]
        to.parent.mkdir(parents=True, exist_ok=True)
        shutil.copy(one, to)
    shared.mkdir()
    shared.chmod(0o777)
    (stage.room / "Base").write_text("FROM scratch\nCOPY . /\n")
    buildah = functools.partial(runs, checks, "buildah", "buildah", "--root", work / "root", "--runroot", work / "run", "--storage-driver", "vfs",
                                env={**os.environ, "BUILDAH_ISOLATION": "chroot"})
    buildah("build", "-q", "-t", "base", "-f", stage.room / "Base", base)
    buildah("build", "-q", "-t", "relay", "--build-arg", "BASE=localhost/base", "-f", prefix / "share/doc/gozdrit/examples/Containerfile", prefix)
    config = json.loads(buildah("inspect", "--type", "image", "localhost/relay"))["OCIv1"]["config"]
    checks.same((config["Entrypoint"], config["User"]), (entry, user), "the container's entrypoint and user")
    box = buildah("from", "--pull-never", "localhost/relay").strip()
    within = functools.partial(buildah, "run", "-v", f"{shared}:/run/gozdrit", box, "--", *config["Entrypoint"])
    words = "receive", "--listen", "127.0.0.1:0", "--to", "127.0.0.1:9", "--control", "/run/gozdrit/control", "--seconds", "20"
    with concurrent.futures.ThreadPoolExecutor(1) as pool:
        ran = pool.submit(within, *words)
        socket = shared / "control"
        checks.count(soon(socket.exists) and f"{socket.stat().st_uid}:{socket.stat().st_gid}" == user, "whose the container's socket is")
        checks.count("played" in json.loads(within("ctl", "/run/gozdrit/control", "stats")), "the container's relay tells no counts")
        within("ctl", "/run/gozdrit/control", "stop")
        ran.result()


def named():
    """The metrics that the alerts are made of, but for Prometheus' own."""
    lines = (PACKAGING / "alerts.yml").read_text().splitlines()
    return set(re.findall(r"\bgozdrit_\w+", "\n".join(one for one in lines if not one.lstrip().startswith("#"))))


def metrics(checks, stage):
    """Each metric of an alert is on the page of a relay that media passed."""
    at = "--metrics", "127.0.0.1:0"
    sender, receiver = stage.pair(End(stage), "--loss", 100, send=at, receive=(*at, "--latency", 1000))
    app = App(stage, sender.at, number=0)

    def lacks():
        return named() - {**told(page(sender)[2]), **told(page(receiver)[2])}.keys()

    def went_on():
        """A round trip is measured where an answer belongs to one question, which a busy machine lets none do at first."""
        app.stream(plain(300, first=app.number), 500)
        return not lacks()

    soon(went_on)
    checks.count(len(named()) > 3 and not lacks(), f"no relay has {lacks()}")


def promtool(checks, stage):
    """Files and alerts as Prometheus reads them, and as it plays the alerts."""
    if skips("the alerts", "promtool"):
        return
    at = installed(checks, stage) / "share/doc/gozdrit/examples"
    runs(checks, "promtool check rules", "promtool", "check", "rules", at / "alerts.yml")
    runs(checks, "promtool check config", "promtool", "check", "config", at / "prometheus.yml")
    runs(checks, "promtool test rules", "promtool", "test", "rules", TREE / "tests/relay/alerts.yml")


def prometheus(checks, stage):
    """A Prometheus with these files scrapes two relays in the place of the targets, and knows the alerts."""
    if skips("Prometheus", "prometheus"):
        return
    sender, receiver = stage.pair(End(stage), send=("--metrics", "127.0.0.1:0"), receive=("--metrics", "127.0.0.1:0"))
    pages = itertools.cycle("{}:{}".format(*metrics_of(one)) for one in (sender, receiver))
    for name in ("prometheus.yml", "targets.yml", "alerts.yml"):
        text = (PACKAGING / name).read_text().replace("15s", "1s")
        (stage.room / name).write_text(re.sub(r"\w+\.example:\d+", lambda found: next(pages), text))
    port = free_port()

    def told_of(what):
        with contextlib.suppress(OSError):
            return json.loads(urllib.request.urlopen(f"http://127.0.0.1:{port}/api/v1/{what}", timeout=20).read())["data"]

    def targets(job):
        return [one for one in (told_of("targets") or {"activeTargets": []})["activeTargets"] if one["labels"]["job"] == job]

    def rules():
        return [one for group in (told_of("rules") or {"groups": []})["groups"] for one in group["rules"]]

    words = "--config.file", stage.room / "prometheus.yml", "--storage.tsdb.path", stage.room / "tsdb", "--web.listen-address", f"127.0.0.1:{port}"
    with beside("prometheus", *words):
        soon(lambda: len(targets("gozdrit")) == 4 and all(one["health"] == "up" for one in targets("gozdrit")))
        checks.same(sorted((one["labels"]["stream"], one["health"]) for one in targets("gozdrit")), [(one, "up") for one in ("one", "one", "two", "two")], "the relays")
        soon(lambda: len(rules()) == 4 and all(one["health"] == "ok" for one in rules()))
        checks.same([(one["name"], one["health"]) for one in rules()], [(f"Gozdrit{one}", "ok") for one in ("Loss", "Latency", "Drops", "NoMedia")], "the alerts")


if __name__ == "__main__":
    part(kubernetes, image, metrics, promtool, prometheus)
