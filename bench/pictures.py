#!/usr/bin/env python3
"""pictures.py [--docs]: draws what bench/run measured into bench/out/pictures, or into docs/use/pictures.

They can be read 480 pixels wide, and in black and white: lines differ in style and marker. On a dark ground they are inverted."""
import re
import sys
import textwrap

import matplotlib

matplotlib.use("svg")
import matplotlib.pyplot as plot
from cycler import cycler
from matplotlib.ticker import FuncFormatter, LogLocator

from results import BACKENDS, CHOICES, DEFAULT, FAST, FNV, INPUTS, MAP, NOUNS, ORIGINAL, PHASES, PICTURES, SET, TEXTS, Results

plot.rcParams.update({"font.size": 7.5, "font.family": "sans-serif", "savefig.facecolor": "white"})
plot.rcParams.update({"svg.fonttype": "none", "svg.hashsalt": "string_interner"})
plot.rcParams.update({"axes.spines.top": False, "axes.spines.right": False})
STYLES = (
    cycler(linestyle=["-", "--", "-", "--", ":", "-.", (0, (1, 3)), (0, (5, 1, 1, 1, 1, 1)), (0, (3, 3))])
    + cycler(marker=["o", "s", "P", "X", "^", "D", "x", "v", "+"])
    + cycler(color=["black", "black", "0.5", "0.5", "0.3", "0.3", "black", "0.5", "black"])
)
OUTLINE = re.compile(r'\bd="[^"]*"')
# Where the reader's ground is dark.
DARK = "@media (prefers-color-scheme: dark) { #figure_1 { filter: invert(1); } }"
TEXTS_IN_ALL, PER_CALL = "texts in the interner (log scale)", "nanoseconds per call (log scale)"
PEERS = {
    "FastStringInterner": FAST["string"],
    "DefaultStringInterner": DEFAULT["string"],
    "original, its hasher": ORIGINAL["string"],
    "original, FNV-1a": FNV["string"],
    "HashMap and Vec": MAP,
    "IndexSet": SET,
}
OF_BACKENDS = {}
for name in BACKENDS:
    OF_BACKENDS[f"ours, {name}"] = FAST[name]
    OF_BACKENDS[f"original, {name}"] = ORIGINAL[name]
OF_CHOSEN = {**CHOICES, "original, FNV": FNV["string"], "original": ORIGINAL["string"]}


def plain(number, _=None):
    return f"{number:,.0f}" if number >= 1000 else f"{number:g}"


def draw_lines(axes, counts, kinds, value):
    """A line for each kind: what `value` gives for it and a count of texts, the least and the median of all rounds. A bar leads
    from the one, which has a mark, to the other."""
    for style, (label, kind) in zip(STYLES, kinds.items()):
        points = [(count, *value(kind, count)) for count in counts if value(kind, count)[0] is not None]
        if points:
            axes.plot(*zip(*(point[:2] for point in points)), markersize=3.5, label=label, **style)
            for count, least, median in points:
                axes.plot([count, count], [least, median or least], color=style["color"], linewidth=0.8)
    axes.set(xscale="log", yscale="log", xticks=counts)
    axes.yaxis.set_major_locator(LogLocator(subs=(1, 2, 5)))
    for axis in (axes.xaxis, axes.yaxis):
        axis.set_major_formatter(FuncFormatter(plain))
        axis.set_minor_locator(plot.NullLocator())
    axes.grid(axis="y", color="0.9", linewidth=0.5)


def figure_of(title, across, up, rows, columns, height, below=1.2):
    """A figure of panels in so many rows and columns, each so high, with what its axes show. Below is room for the names of lines."""
    figure, panels = plot.subplots(rows, columns, figsize=(5, height * rows + 0.4 + below), squeeze=False)
    above, below = (inches / figure.get_figheight() for inches in (0.4, below))
    figure.set_layout_engine("constrained", rect=(0.03, below, 0.97, 1 - above - below))
    figure.text(0.01, 0.995, textwrap.fill(title, 72), fontsize=8.5, va="top")
    figure.supxlabel(across, y=below - 0.02 / figure.get_figheight(), va="top", fontsize=7.5)
    figure.supylabel(up, x=0.01, y=below + (1 - above - below) / 2, fontsize=7.5)
    return figure, panels.flat


def save(figure, line, name, folder):
    """Writes a figure, with a line on what was measured and the names of its lines below."""
    figure.text(0.01, 0.05 / figure.get_figheight(), textwrap.fill(line, 108), fontsize=5.5, color="0.3", va="bottom")
    handles, labels = figure.axes[0].get_legend_handles_labels()
    if labels:
        place = (0.5, 0.45 / figure.get_figheight())
        figure.legend(handles, labels, loc="lower center", bbox_to_anchor=place, ncol=3, frameon=False, fontsize=7, columnspacing=1)
    write(figure, folder / f"{name}.svg")


def write(figure, path):
    figure.savefig(path, metadata={"Date": None})
    plot.close(figure)
    text = path.read_text(encoding="utf-8").replace("</style>", f" {DARK}</style>", 1)
    # Each tag on one line.
    path.write_text(OUTLINE.sub(lambda it: " ".join(it[0].split()), text), encoding="utf-8")


def draw_times(results, folder, file, title, kinds, parts, up=PER_CALL):
    """A picture of panels, each an input and a phase."""

    def value(kind, name, count, phase):
        """The least and the median: nanoseconds a call, or of chosen texts, whose growth is what matters, milliseconds in all."""
        times = [results.value(kind, name, count, f"{phase}{of}") for of in ("", " median")]
        return [time * count / 1e6 if time and name == "chosen" else time for time in times]

    columns = min(2, len(parts))
    figure, panels = figure_of(title, TEXTS_IN_ALL, up, -(-len(parts) // columns), columns, 1.9 if columns == 2 else 2.6)
    is_of_one_input = len({name for name, _ in parts}) == 1
    for axes, (name, phase) in zip(panels, parts):
        draw_lines(axes, results.counts[name], kinds, lambda kind, count: value(kind, name, count, phase))
        axes.set_title(textwrap.fill(PHASES[phase], 34) if is_of_one_input else f"{phase}, {NOUNS[name]}", fontsize=7.5, loc="left")
    for axes in panels[len(parts) :]:
        axes.set_visible(False)
    save(figure, f"Marks are the least of all rounds, and bars lead to the median. {results.line('times')}", file, folder)


def draw_memory(results, folder):
    """Bars: what lives once all texts are in, and the most at once while they went in."""
    kinds = {"HashMap and Vec": MAP, "IndexSet": SET}
    for backend in BACKENDS:
        kinds[f"original, {backend}"] = FNV[backend]
        kinds[f"ours, {backend}, Index"] = DEFAULT[backend]
        kinds[f"ours, {backend}, TaggedIndex"] = FAST[backend]
    names = [name for name in TEXTS if results.counts[name]]
    title = "Memory: black once all texts are in, white the most while filling; dashed: the bytes of the texts alone"
    figure, panels = figure_of(title, "bytes per text", "", len(names), 1, 2.2, below=0.65)
    for axes, name in zip(panels, names):
        count = max(results.counts[name])
        live, peak = ([results.value(kind, name, count, of) or 0 for kind in kinds.values()] for of in ("live", "peak"))
        bars = axes.barh(list(kinds), peak, height=0.7, color="white", edgecolor="black", linewidth=0.7)
        axes.barh(list(kinds), live, height=0.7, color="0.25")
        axes.bar_label(bars, [f" {low:.0f}, {high:.0f}" for low, high in zip(live, peak)], fontsize=6.5)
        axes.axvline(results.bytes[name, count], color="0.5", linestyle="--", linewidth=0.8)
        axes.set_xlim(0, max(peak) * 1.24)
        axes.set_title(f"{count:,} {NOUNS[name]}", fontsize=7.5, loc="left")
        axes.invert_yaxis()
    save(figure, results.line("memory"), "memory", folder)


def main():
    results = Results()
    folder = PICTURES["docs" if "--docs" in sys.argv else "out"]
    folder.mkdir(parents=True, exist_ok=True)
    every = [("identifiers", phase) for phase in PHASES]
    most = [("identifiers", phase) for phase in ("fill", "known", "unknown", "shuffled")]
    both = [(name, phase) for phase in ("fill", "known", "unknown") for name in ("identifiers", "long")]
    calls = f"Time of each call over {INPUTS['identifiers']}"
    backends = "Time over each backend: ours (TaggedIndex, FoldState), and the original's (its default hasher)"
    choices = "Time with each index and hasher over the string backend"
    chosen = "Time to fill an interner with texts that were chosen against FNV-1a"
    interning = "Time of four calls from Rattle over identifiers, next to the original's from Rust"
    draw_times(results, folder, "interning", interning, PEERS, most)
    draw_times(results, folder, "calls-identifiers", calls, PEERS, every)
    draw_times(results, folder, "backends", backends, OF_BACKENDS, every)
    draw_times(results, folder, "index-and-hasher", choices, CHOICES, both)
    if results.counts["chosen"]:
        draw_times(results, folder, "chosen", chosen, OF_CHOSEN, [("chosen", "fill")], "milliseconds in all (log scale)")
    draw_memory(results, folder)


if __name__ == "__main__":
    main()
