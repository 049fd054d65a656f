"""Findings as a table of text, as CSV and as a table of Markdown."""

import csv
import re
import sys

from texts import shortened

# how much of a summary stands in a line of the table, and how many aliases
LONGEST_SUMMARY = 60
MOST_ALIASES = 2
COLOURS = {"critical": "1;31", "high": "31", "medium": "33", "low": "36"}


def cell(column, text):
    """The text of a cell of the table, which is never empty."""
    if column == "summary":
        text = shortened(text, LONGEST_SUMMARY)
    if column == "aliases":
        names = text.split()
        more = len(names) - MOST_ALIASES
        text = " ".join(names[:MOST_ALIASES] + [f"+{more}"] * (more > 0))
    return text or "-"


def print_table(report, has_colours):
    columns = report.columns()
    lines = [[cell(column, text) for column, text in row.texts_of(columns)] for row in report.rows]
    if lines:
        heads = [column.upper() for column in columns]
        widths = [max(map(len, cells)) for cells in zip(heads, *lines)]
        print(line_of(heads, widths))
        for row, cells in zip(report.rows, lines):
            line = line_of(cells, widths)
            colour = COLOURS.get(row.severity) if has_colours and report.has_records else None
            print(coloured(line, colour, columns.index("severity"), cells, widths) if colour else line)
        print()
    print(report.summary())
    for line in report.further_summary():
        print(line)


def line_of(cells, widths):
    return "  ".join(cell.ljust(width) for cell, width in zip(cells, widths)).rstrip()


def coloured(line, colour, column, cells, widths):
    """The line with one of its cells in a colour."""
    start = sum(width + 2 for width in widths[:column])
    end = start + len(cells[column])
    return f"{line[:start]}\033[{colour}m{line[start:end]}\033[0m{line[end:]}"


def print_csv(report):
    """A header and a line for each finding, with the whole texts. A text that a spreadsheet would take as a formula has a `'` before it."""
    columns = [column for column in report.columns() if column not in ("image", "severity")]
    columns = ["image", "digest", *(["severity", "score"] if report.has_records else []), *columns, "source", "ecosystem"]
    writer = csv.writer(sys.stdout, lineterminator="\n")
    writer.writerow(columns)
    for row in report.rows:
        writer.writerow([no_formula(text) for _, text in row.texts_of(columns)])


def no_formula(text):
    # the name of an npm package in a scope is no formula
    is_scoped = re.fullmatch(r"@[A-Za-z0-9._~-]+/[A-Za-z0-9._~-]+", text)
    return "'" + text if text.startswith(("=", "+", "-", "@")) and not is_scoped else text


def print_markdown(report):
    columns = report.columns()
    if report.rows:
        print(f"| {' | '.join(columns)} |")
        print("|" + "---|" * len(columns))
    for row in report.rows:
        print(f"| {' | '.join(markdown_cell(column, text) for column, text in row.texts_of(columns))} |")
    print("\n" * bool(report.rows) + markdown(report.summary()))
    for line in report.further_summary():
        print(f"\n{markdown(line)}")


def markdown_cell(column, text):
    if column == "link":
        return f"[link](<{text}>)"
    return markdown(text) or "-"


def markdown(text):
    """The text, without what Markdown or HTML would take as markup."""
    return re.sub(r"([\\`*_{}\[\]<>()#!|~&@])", r"\\\1", text)
