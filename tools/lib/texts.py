"""Texts of images and feeds, as they are shown."""

# so much is shown of a line that cannot be read
LONGEST = 1000


def printable(value):
    """The text, where what does not print is escaped."""
    if not isinstance(value, str):
        raise ValueError("not a text")
    return "".join(c if c.isprintable() else c.encode("unicode_escape").decode("ascii") for c in value)


def shortened(line, longest=LONGEST):
    return line if len(line) <= longest else line[:longest] + "..."


def counted(number, word, many=None):
    return f"{number} {word if number == 1 else many or word + 's'}"
