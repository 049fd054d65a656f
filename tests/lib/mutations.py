"""Changes of inputs and package files at random: of their bytes, their lines and their JSON."""

import json

# what damages a text at its edges, its quoting or its numbers, and parts of package files
PIECES = [
    b"\xff", b"\xc3", b"\0", b"\xef\xbb\xbf", b"\r", b"\n", b"\n\n", b"\r\n", b"\t", b" ", b":", b"=", b'"', b"'", b"\\", b"\\u0000", b"\\ud800", b"\\udc00", b"\\ud83d\\ude00", b"{", b"}", b"[", b"]", b",",
    b"{}", b"[]", b"null", b"true", b"-0", b"1.0", b"1e999", b"-1", b"18446744073709551616", b"9" * 400, b"0." + b"0" * 400 + b"1", b"[" * 130, b"a" * 5000, b"~", b"-", b"+", b"!", b"\xc3\xa9",
    b"Package: x\n", b"Status: install ok half-installed\n", b"Status: hold ok installed\n", b"Version: 1.0\n", b"Version:\n", b"Source: s (1.0~rc1)\n", b"Source: s ()\n", b"Architecture:\n", b" continued\n", b"#x: y\n",
    b"P:x\n", b"V:1.0-r0\n", b"A:\n", b"o:\n", b"o:x\n", b"C:\n", b"Name: x\n", b"Name:\n", b"Metadata-Version: 2.1\n", b"ID=debian\n", b"ID='alpine'\n", b'VERSION_ID="3.18"\n', b"VERSION_ID=\n", b'ID="a\\"b"\n',
]
TEXTS = [
    "", "0", "*", "1.0", "1.0-1", "1:1.0-1", "1.0~rc1", "1.0_rc1-r1", "1.0.0-rc.1+build", "1!1.0rc1.post2.dev3+local", "9" * 300, "no version", "Debian", "Debian:12", "Alpine:v3.18", "npm", "PyPI", "unknown", "ECOSYSTEM",
    "SEMVER", "GIT", "openssl", "lodash", "src", "n3", "p-3", "\0", "\ufeff", "caf\u00e9", "\U0001f600", "a" * 5000, "sha256:" + "a" * 64, "list", "update",
    "CycloneDX", "cvwatch:kind", "cvwatch:path", "cvwatch:source_version", "deb", "apk", "pypi", "var/lib/dpkg/status", "a//b",
]
VALUES = [None, True, 0, 1, -1, 1.5, 7, 8, 2**64, [], {}, [[]], [{}], ["x"], {"introduced": "0"}, {"introduced": "0", "fixed": "2.0"}, {"package": {"ecosystem": "npm", "name": "n3"}, "versions": ["1.0.0"]}]
NAMES = ["id", "modified", "withdrawn", "affected", "package", "ecosystem", "name", "ranges", "type", "events", "introduced", "fixed", "last_affected", "limit", "versions", "hash", "layers", "seal", "version", "lane", "do", "components", "properties", "value", "bomFormat", "metadata", "component", "", "\0"]


# ---- of bytes


def place_in(chance, data):
    return chance.randrange(len(data) + 1)


def insert_piece(chance, data):
    place = place_in(chance, data)
    return data[:place] + chance.choice(PIECES) + data[place:]


def change_byte(chance, data):
    place = place_in(chance, data)
    return data[:place] + bytes([chance.randrange(256)]) + data[place + 1 :]


def flip_bit(chance, data):
    place = place_in(chance, data)
    return data[:place] + bytes(byte ^ (1 << chance.randrange(8)) for byte in data[place : place + 1]) + data[place + 1 :]


def leave_out(chance, data):
    place = place_in(chance, data)
    return data[:place] + data[place + chance.choice([1, 1, 2, 8, 100]) :]


def cut_off(chance, data):
    return data[: place_in(chance, data)]


def repeat_part(chance, data):
    place, length = place_in(chance, data), chance.choice([1, 4, 30, 400])
    return data[:place] + data[place : place + length] * chance.choice([2, 2, 3, 50]) + data[place + length :]


# ---- of lines


def swap_lines(chance, data):
    lines = data.split(b"\n")
    first, second = chance.randrange(len(lines)), chance.randrange(len(lines))
    lines[first], lines[second] = lines[second], lines[first]
    return b"\n".join(lines)


def drop_line(chance, data):
    lines = data.split(b"\n")
    lines.pop(chance.randrange(len(lines)))
    return b"\n".join(lines)


def repeat_line(chance, data):
    lines = data.split(b"\n")
    place = chance.randrange(len(lines))
    return b"\n".join(lines[:place] + [lines[place]] * chance.choice([2, 2, 3, 40]) + lines[place + 1 :])


def end_lines_with_cr(_, data):
    return data.replace(b"\n", b"\r\n")


# ---- of JSON


def change_json(chance, data):
    """Changes a value in a line that is JSON, or its spelling."""
    lines = data.split(b"\n")
    place = chance.randrange(len(lines))
    try:
        value = json.loads(lines[place])
    except (ValueError, RecursionError):
        return insert_piece(chance, data)
    value = change_value(chance, value)
    text = json.dumps(value, ensure_ascii=chance.random() < 0.5, separators=chance.choice([(",", ":"), (", ", ": "), (",\t", " :\r")]))
    lines[place] = text.encode(errors="replace")
    return b"\n".join(lines)


def change_value(chance, value):
    if isinstance(value, dict) and value and chance.random() < 0.85:
        name = chance.choice(list(value))
        if chance.random() < 0.15:
            return {key: item for key, item in value.items() if key != name}
        if chance.random() < 0.15:
            return {**value, chance.choice(NAMES): chance.choice(VALUES + TEXTS)}
        return {**value, name: change_value(chance, value[name])}
    if isinstance(value, list) and value and chance.random() < 0.85:
        place = chance.randrange(len(value))
        copies = chance.choice([1, 1, 0, 2])
        kept = [change_value(chance, value[place])] if copies == 1 else [value[place]] * copies
        return value[:place] + kept + value[place + 1 :]
    return chance.choice(TEXTS if chance.random() < 0.7 else VALUES)


OF_BYTES = [insert_piece, insert_piece, insert_piece, change_byte, flip_bit, leave_out, cut_off, repeat_part]
OF_LINES = [swap_lines, drop_line, repeat_line, end_lines_with_cr]
ALL = OF_BYTES + OF_LINES * 2


def mutated(chance, data, is_json):
    """The bytes with one change."""
    return chance.choice(ALL + [change_json] * 16 if is_json else ALL)(chance, data)
