"""A picture of a run: what happened to each place over time, how long repairs took, and what the window held."""
import io

import matplotlib

matplotlib.use("Agg")
from matplotlib import pyplot  # noqa: E402  the backend is chosen first, or a display would be looked for
from matplotlib.ticker import MaxNLocator  # noqa: E402

# Colours of Okabe and Ito, which colour-blind people tell apart; each mark has a shape of its own besides.
ORANGE, SKY, GREEN, BLUE, RED, PURPLE, GREY = "#E69F00", "#56B4E9", "#009E73", "#0072B2", "#D55E00", "#CC79A7", "#666666"
MARKS = {
    "sent": dict(marker=".", color=SKY, s=26, linewidths=0),
    "played": dict(marker="|", color=GREEN, s=26, linewidths=1.2),
    "asked": dict(marker="<", color=ORANGE, s=22, linewidths=0),
    "retransmitted": dict(marker="^", color=BLUE, s=26, linewidths=0),
    "lost": dict(marker="x", color=RED, s=30, linewidths=1.4),
    "ask lost": dict(marker="+", color=PURPLE, s=44, linewidths=1.4),
    "given up": dict(marker="s", color="black", s=16, linewidths=0),
    "overrun": dict(marker="D", facecolors="none", edgecolors=GREY, s=20, linewidths=1),
}
NAMES = {"asked": "asked for (NACK)", "ask lost": "NACK lost", "lost": "packet lost", "overrun": "overrun (no room)"}
LEGEND = dict(loc="upper left", bbox_to_anchor=(1.01, 1), borderaxespad=0, frameon=False)


def origin(run):
    """The least place that is drawn: places are told from it on, since extended sequence numbers are long."""
    return min((place for marks in run.marks.values() for _, place in marks), default=0)


def draw_places(axes, run):
    """Each place over time. Rare marks lie above the common ones."""
    first = origin(run)
    for level, (kind, style) in enumerate(MARKS.items()):
        marks = run.marks[kind]
        if marks:
            moments, places = zip(*marks)
            label = f"{NAMES.get(kind, kind)}: {len(marks)}"
            axes.scatter(moments, [place - first for place in places], label=label, zorder=2 + level, **style)
    axes.set_ylabel(f"place, from {first} on\n(extended sequence number)")
    axes.yaxis.set_major_locator(MaxNLocator(integer=True))
    if any(run.marks.values()):
        axes.legend(**LEGEND)


def draw_repairs(axes, run):
    """How long each repair took, at the moment at which it was done."""
    axes.set_ylabel("repair took [ms]")
    label = f"repairs: {len(run.repairs)}\n{run.repaired_by.replace(' → ', '' + chr(10) + '→ ')}"
    if run.repairs:
        moments, took = zip(*run.repairs)
        middle = sorted(took)[len(took) // 2]
        label += f"\nmedian {middle} ms, most {max(took)} ms"
        axes.scatter(moments, took, marker="^", color=BLUE, s=26, linewidths=0, label=label, zorder=3)
    else:
        axes.scatter([], [], marker="^", color=BLUE, s=26, linewidths=0, label=label)
    if run.trips:
        moments, trips = zip(*run.trips)
        axes.plot(moments, trips, drawstyle="steps-post", color=GREY, linewidth=1.2, label="round-trip time measured", zorder=2)
    axes.set_ylim(0, 1.15 * max([1] + [took for _, took in run.repairs + run.trips]))
    axes.legend(**LEGEND)


def draw_window(axes, run):
    """The places in the receiver's window, and the missing ones among them."""
    moments, spans, missing = zip(*run.held)
    axes.fill_between(moments, spans, step="post", color=SKY, alpha=0.45, linewidth=0)
    axes.plot(moments, spans, drawstyle="steps-post", color=BLUE, linewidth=1, label=f"next to play … highest\n(most {max(spans)})")
    axes.fill_between(moments, missing, step="post", color=RED, linewidth=0, hatch="////", edgecolor="white",
                      label=f"missing of these\n(most {max(missing)})")
    axes.set_ylabel("window [places]")
    axes.yaxis.set_major_locator(MaxNLocator(nbins=5, integer=True))
    axes.set_ylim(0, 1.15 * max(1, *spans))
    axes.legend(**LEGEND)


def title(run, name):
    """The run's name, and what has no place in the picture."""
    words = [f"{word} {many}" for word, many in sorted(run.counts.items()) if many]
    return name + (f"   (besides: {', '.join(words)})" if words else "")


def picture(run, name):
    """The picture's octets: the same for the same run, so nothing of the day or of the machine is in them."""
    panels = [(draw_places, 3.4), (draw_repairs, 1)] + ([(draw_window, 1.2)] if run.held else [])
    with matplotlib.rc_context({"font.size": 9, "font.family": "DejaVu Sans", "hatch.linewidth": 0.6, "hatch.color": "white"}):
        figure, axes = pyplot.subplots(len(panels), sharex=True, figsize=(10.5, 2.2 + 0.95 * sum(h for _, h in panels)),
                                       gridspec_kw={"height_ratios": [height for _, height in panels], "hspace": 0.12})
        for panel, (draw, _) in zip(axes, panels):
            draw(panel, run)
            panel.grid(color="#dddddd", linewidth=0.6)
            panel.set_axisbelow(True)
        axes[0].set_title(title(run, name), loc="left")
        axes[-1].set_xlabel("moment [ms]")
        axes[-1].ticklabel_format(axis="x", style="plain", useOffset=False)
        figure.align_ylabels(axes)
        octets = io.BytesIO()
        figure.savefig(octets, format="png", dpi=100, bbox_inches="tight", metadata={"Software": None})
        pyplot.close(figure)
    return octets.getvalue()
