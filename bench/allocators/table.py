"""The table that bench/peers prints, and what stands above it."""
import datetime
import math
import os
import pathlib
import platform
import re
import statistics

from allocators.columns import COLUMNS


def processor():
    found = re.search(r"^model name\s*: (.*)", pathlib.Path("/proc/cpuinfo").read_text(encoding="utf-8"), re.M)
    return found[1] if found else platform.machine()


def heading(built):
    """What was measured, when and where."""
    load = ", ".join(f"{it:.1f}" for it in os.getloadavg())
    return f"The heap of {built.revision}, {datetime.date.today()}, version {built.version}, {processor()}, load {load}."


def spread(figures, digits):
    """The median, the least and the most."""
    middle, least, most = (f"{it:,.{digits}f}" for it in (statistics.median_low(figures), min(figures), max(figures)))
    return f"{middle} ({least} to {most})"


def medians(runs):
    return [statistics.median_low(figures) for figures in zip(*runs)]


def stroked(figures):
    return "/".join(f"{it:,.0f}" for it in figures)


# How the cell of a row is made of the figures of its runs, by the beginning of the row's text; the first that fits.
CELLS = [
    (("allocate", "release", "resize", "malloc,", "free,", "realloc,"), lambda runs: stroked(runs[0])),
    (("full",), lambda runs: ", ".join(f"{it / 10:.1f}" for it in runs[0])),
    (("worst", "write", "read", "recorded", "reset"), lambda runs: f"{runs[0][0]:,.0f}"),
    (("lines",), lambda runs: f"{runs[0][0]:.1f}/{runs[0][1]:.0f}"),
    (("first mallocs",), lambda runs: stroked([medians(runs)[0], min(worst for _, worst in runs)])),
    (("cold", "page faults", "tail"), lambda runs: stroked(medians(runs))),
    (("frees", "pairs", "bursts", "drain", "larson", "xmalloc", "mstress"), lambda runs: spread([it / 1000 for it, in runs], 1)),
    (("open",), lambda runs: spread([it for it, in runs], 2)),
    (("",), lambda runs: spread([it for it, in runs], 0)),
]
# Rows that come again as ratios of the same round, by the beginning of their texts; the first that fits. With them the row and the column to
# which they are ratios: the same row where none is named. Where a row has a way to free, that stands in the place of its own.
RATIOS = [
    (("bursts: a drained name", "drain"), "over a ring in C", "level4"),
    (("frees", "pairs", "bursts"), "under a lock", "authors"),
    (("cold", "time of a call", "larson", "xmalloc", "mstress"), None, "authors"),
]
WAY = re.compile(r"\b(over .*?|under a lock|by free)(?=(, \d threads)?(, by chance)?$)")


def cell(row, runs):
    return next(make for begins, make in CELLS if row.startswith(begins))(runs)


def same_round(runs, others):
    """The first figure of each run as a multiple of that of another column's, or row's, run in the same round."""
    return [one[0] / other[0] for one, other in zip(runs, others) if other[0]] or [math.nan]


def ratios(told, row):
    """Of each column the ratios of a row, round by round; none where there is nothing to compare it with."""
    for begins, way, column in RATIOS:
        if row.startswith(begins):
            others = told.get(WAY.sub(way, row) if way else row, {}).get(column, [])
            return {it: same_round(runs, others) for it, runs in told[row].items()} if others else {}
    return {}


def lines(told, columns):
    yield "| Row | " + " | ".join(COLUMNS[column].title for column in columns) + " |"
    yield "|---|" + "---|" * len(columns)
    for row in list(told):
        shown = {it: cell(row, runs) for it, runs in told[row].items()}
        shown_again = {it: spread(figures, 2) for it, figures in ratios(told, row).items()}
        for text, cells in ((row, shown), (f"{row}, ratio", shown_again)):
            if cells:
                yield f"| {text.replace(' bytes', ' B')} | {' | '.join(cells.get(it, '') for it in columns)} |"
