"""The file `cvwatch.keep` of `cvwatch keep`: its records, and the events in them.

The file is a list of records. A gate byte stands at 0. An open gate, 01, is followed by a length of 8 bytes, that many bytes, and the next gate;
it counts only where all of these lie inside the file. Any other gate ends the list, as does the end of the file. A record has the events of a
round, at least one: the number in 8 bytes; then 00, the lane in 1, the line in 8, a length in 4 and the bytes of the request; or 01, the worker in
4, one byte for the word, and the 32 bytes of the digest. Numbers begin with their most significant byte.
"""

import struct
from collections import namedtuple

NAME = "cvwatch.keep"
CLOSED, OPEN = b"\0", b"\1"
# an event of a request: its number, the lane, the number of the line in its run, and the line
Line = namedtuple("Line", ["number", "lane", "line", "text"])
# an event of a worker: its number, the worker, what it did, and the digest of the layer
Work = namedtuple("Work", ["number", "worker", "word", "layer"])
WORDS = ("claim", "indexed", "fault", "memory")
LINE, WORK = struct.Struct(">QBBQI"), struct.Struct(">QBIB32s")


class NoRecord(Exception):
    """The bytes of a record are not the events of a round."""


def records_of(data):
    """The records of a file."""
    records, gate = [], 0
    while data[gate : gate + 1] == OPEN:
        after = gate + 9 + int.from_bytes(data[gate + 1 : gate + 9], "big")
        if after >= len(data):
            break
        records.append(data[gate + 9 : after])
        gate = after
    return records


def file_of(records):
    """A file with these records."""
    return b"".join(OPEN + len(record).to_bytes(8, "big") + record for record in records) + CLOSED


def read(path):
    """The records of a file, which need not be there."""
    try:
        with open(path, "rb") as file:
            return records_of(file.read())
    except FileNotFoundError:
        return []


def event_bytes(event):
    if isinstance(event, Line):
        return LINE.pack(event.number, 0, event.lane, event.line, len(event.text)) + event.text
    return WORK.pack(event.number, 1, event.worker, WORDS.index(event.word), bytes.fromhex(event.layer.removeprefix("sha256:")))


def record_of(events):
    """The record of a round with these events."""
    return b"".join(map(event_bytes, events))


def events_of(record):
    """The events of a record. Raises NoRecord where it has another form."""
    if not record:
        raise NoRecord("it is empty")
    events, place = [], 0
    while place < len(record):
        event, place = event_at(record, place)
        events.append(event)
    return events


def event_at(record, place):
    """The event at a place of a record, and the place after it."""
    kind = record[place + 8 : place + 9]
    form = {b"\0": LINE, b"\1": WORK}.get(kind)
    if form is None or place + form.size > len(record):
        raise NoRecord(f"there is no event at byte {place}")
    values, after = form.unpack_from(record, place), place + form.size
    if form is WORK:
        number, _, worker, word, digest = values
        if word >= len(WORDS):
            raise NoRecord(f"a worker has no event {word}")
        return Work(number, worker, WORDS[word], "sha256:" + digest.hex()), after
    number, _, lane, line, length = values
    if after + length > len(record):
        raise NoRecord(f"the line of event {number} does not end in the record")
    return Line(number, lane, line, record[after : after + length]), after + length
