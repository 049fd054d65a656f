"""The advisories that a user has looked at, and does not want to see."""

import datetime

from texts import printable

FORM = "ID [until YYYY-MM-DD] REASON"


class BadLine(Exception):
    """A line that is not of the form of the list."""


class Entry:
    """A line of the list."""

    def __init__(self, name, until, reason):
        self.name = printable(name)
        self.until = until
        self.reason = reason
        self.is_used = False

    def is_over(self, today):
        return self.until is not None and self.until < today


def parse_line(line):
    """The entry of a line. Raises ValueError if it is not one."""
    name, *rest = line.split(maxsplit=1)
    until, reason = None, rest[0].strip() if rest else ""
    if reason.split(maxsplit=1)[:1] == ["until"]:
        _, day, *others = reason.split(maxsplit=2)
        until = datetime.date.fromisoformat(day)
        reason = others[0] if others else ""
    if not reason:
        raise ValueError("there is no reason")
    return Entry(name, until, reason)


def parse(lines):
    """The entries of a list. Raises BadLine with the number of a line that is not one."""
    entries = []
    for number, line in enumerate(lines, 1):
        if line.strip() and not line.lstrip().startswith("#"):
            try:
                entries.append(parse_line(line))
            except ValueError as error:
                raise BadLine(f"line {number} is not of the form {FORM}: {error}") from error
    return entries


def remaining(rows, entries, today):
    """The rows that no entry ignores.

    An entry stands for an advisory with its id or alias. An advisory on several vulnerabilities, its `upstream`, is ignored if
    all of them are.
    """
    valid = {}
    for entry in entries:
        if not entry.is_over(today):
            valid.setdefault(entry.name, []).append(entry)
    return [row for row in rows if not is_ignored(row, valid)]


def is_ignored(row, valid):
    upstream = row.record.upstream if row.record else []
    aliases = row.record.aliases if row.record else []
    for name in {row.advisory, *aliases, *upstream} & valid.keys():
        for entry in valid[name]:
            entry.is_used = True
    if not valid.keys().isdisjoint({row.advisory, *aliases}):
        return True
    return bool(upstream) and valid.keys() >= set(upstream)


def notes(entries, today):
    """What is to be said of entries that do not ignore anything."""
    for entry in entries:
        if entry.is_over(today):
            yield f"{entry.name} is not ignored any more: until {entry.until}"
        elif not entry.is_used:
            yield f"{entry.name} is to be ignored, and no finding has it"

