"""A picture of how long packets took through the relays, and of those that were lost past them."""
from importlib.util import find_spec


def is_there():
    """Whether the plotting library is."""
    return find_spec("matplotlib") is not None


def draw(file, many, through, past, delay):
    """Writes the picture: through the relays above, past them below, a bar for each packet that never came."""
    import matplotlib

    matplotlib.use("Agg")
    from matplotlib import pyplot

    file.parent.mkdir(parents=True, exist_ok=True)
    figure, axes = pyplot.subplots(2, 1, sharex=True, sharey=True, figsize=(9, 5), layout="constrained")
    for axis, name, took in zip(axes, ("through the relays", "past the relays"), (through, past)):
        lost = [index for index in range(many) if index not in took]
        axis.scatter(took.keys(), [one - delay for one in took.values()], s=3, label=f"{len(took)} came")
        axis.vlines(lost, 0, 100, color="#c00000", linewidth=0.6, label=f"{len(lost)} lost")
        axis.set_title(name, loc="left", fontsize=10)
        axis.set_ylabel("ms added")
        axis.legend(loc="upper right", fontsize=8)
    axes[-1].set_xlabel("packet")
    figure.savefig(file, dpi=110)
