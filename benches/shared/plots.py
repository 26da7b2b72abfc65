"""Draws the stored figures as SVG, by matplotlib: docs/plots/NAME.svg for each plot of benches/measured.json."""
import os

from lib.programs import ROOT

from . import figures

FOLDER = os.path.join(ROOT, "docs", "plots")
NEEDED = "plots need matplotlib: apt-get install python3-matplotlib, or pip install matplotlib"
OURS = "couchd"  # the beginning of the names of lines that are drawn in one colour
COLOURS = {"couchd": "#c0392b", "plain Rust": "#7f8c8d", "nginx": "#27ae60", "redis": "#2980b9"}
OTHER_COLOURS = ["#c0392b", "#2980b9", "#27ae60", "#8e44ad", "#d35400", "#16a085", "#7f8c8d"]
MARKS = "os^Dv<>"

# of each plot what its axes are
AXES = {
    "throughput": ("connections", "requests a second"),
    "growth": ("documents", "of what it takes at the first size"),
    "starts": ("documents", "seconds"),
}


def library():
    """The library that draws, set to write the same text for the same figures; or None where it isn't installed."""
    try:
        import matplotlib
    except ImportError:
        return None
    matplotlib.use("svg")
    matplotlib.rcParams.update(
        {"svg.hashsalt": "hilghovar", "svg.fonttype": "none", "font.family": "sans-serif", "font.size": 9, "axes.grid": True}
    )
    matplotlib.rcParams.update(
        {"grid.alpha": 0.3, "axes.spines.top": False, "axes.spines.right": False, "lines.linewidth": 1.6, "lines.markersize": 4}
    )
    return matplotlib


def colour(name, at):
    """One colour for a program in all plots, else one by the place of the line."""
    return next((COLOURS[it] for it in COLOURS if name.startswith(it)), OTHER_COLOURS[at % len(OTHER_COLOURS)])


def draw_panel(axes, name, lines, labels):
    """One panel. Numbers of connections and documents are by powers, and so are figures over more than a power of ten."""
    values = [value for line in lines.values() for _, value in line]
    places = sorted({place for line in lines.values() for place, _ in line})
    for at, (line, points) in enumerate(sorted(lines.items())):
        axes.plot(*zip(*sorted(points)), marker=MARKS[at % len(MARKS)], color=colour(line, at), label=line)
    axes.set_xscale("log")
    axes.set_xticks(places, ["{:,}".format(place) for place in places])
    axes.minorticks_off()
    if max(values) > 20 * min(values) > 0:
        axes.set_yscale("log")
    else:
        axes.set_ylim(bottom=0)
    axes.yaxis.set_major_formatter(lambda value, _: "{:,.6g}".format(value))
    axes.set_title(name, loc="left", fontweight="bold")
    axes.set_xlabel(labels[0])
    axes.set_ylabel(labels[1])
    axes.legend(frameon=False, fontsize=8)


def draw(plot, found):
    """The path of the plot, which is written."""
    from matplotlib.figure import Figure

    panels = found["panels"]
    figure = Figure(figsize=(4.6 * len(panels), 3.4), layout="constrained")
    for axes, (name, lines) in zip(figure.subplots(1, len(panels), squeeze=False)[0], sorted(panels.items())):
        draw_panel(axes, name, lines, AXES[plot])
    figure.supxlabel(
        "measured on %s, %s" % (found["measured"], found["machine"]), fontsize=7, x=0.99, ha="right", color="#777777"
    )
    os.makedirs(FOLDER, exist_ok=True)
    path = os.path.join(FOLDER, plot + ".svg")
    figure.savefig(path, format="svg", metadata={"Date": None, "Creator": "benches/all"})
    return path


def draw_all():
    """The paths of all plots, which are written; or None where the library isn't installed."""
    if library() is None:
        return None
    return [draw(plot, found) for plot, found in sorted(figures.stored().items())]
