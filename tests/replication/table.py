"""A table for a terminal, or in Markdown."""
from __future__ import annotations

import statistics


def table(heads: list[str], rows: list[list[str]], markdown: bool) -> str:
    """Columns are right-aligned if all their cells begin with a digit, are `-` or are empty."""
    right = [all(row[at][:1].isdigit() or row[at] in ("-", "") for row in rows) for at in range(len(heads))]
    if markdown:
        rule = ["--:" if each else "---" for each in right]
        return "\n".join(f"|{'|'.join(cells)}|" for cells in [heads, rule, *rows])
    widths = [max(len(row[at]) for row in [heads, *rows]) for at in range(len(heads))]

    def line(cells: list[str]) -> str:
        return "  ".join(cell.rjust(width) if to_right else cell.ljust(width)
                         for cell, width, to_right in zip(cells, widths, right)).rstrip()

    return "\n".join(line(cells) for cells in [heads, ["-" * width for width in widths], *rows])


def milliseconds(took: list[float]) -> list[str]:
    """The median, the 99th percentile and the longest."""
    if len(took) < 2:
        return ["-"] * 3
    times = (statistics.median(took), statistics.quantiles(took, n=100, method="inclusive")[98], max(took))
    return [f"{each * 1e3:,.1f}" for each in times]
