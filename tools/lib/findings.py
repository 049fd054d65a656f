"""Answers of `cvwatch scan` and `cvwatch scan-list`, their findings, and what records and options say of them."""

import json

import osv_records
from texts import counted, printable, shortened

FACTS = ("name", "version", "advisory", "path")
UNNAMED = "unnamed"


class Image:
    """An image that was scanned. An answer without a name has its digest as the name, and that of a list may have no digest either."""

    def __init__(self, answer):
        name = answer.get("name") or answer["image"]
        self.name = UNNAMED if name is None else printable(name)
        digest = answer.get("image")
        self.digest = printable(digest) if isinstance(digest, str) else ""
        # the components of a list that are no packages to cvwatch
        self.skipped = answer.get("skipped", 0)
        if not isinstance(self.skipped, int) or self.skipped < 0:
            raise ValueError("not a number of components")


class Row:
    """A finding as it is shown."""

    def __init__(self, finding, image):
        self.image = image.name
        self.digest = image.digest
        self.name, self.installed, self.advisory, self.path = (printable(finding[fact]) for fact in FACTS)
        self.arch = printable(finding.get("arch") or "")
        self.source = printable(finding.get("source") or "")
        self.ecosystem = printable(finding.get("ecosystem") or "")
        self.fixed = printable(finding.get("fixed") or "")
        self.package = self.name
        self.record = None
        self.severity, self.score = osv_records.UNKNOWN, None
        self.link = osv_records.osv_page(self.advisory)

    def join(self, record):
        """Takes what the record of the advisory says."""
        self.record = record
        self.severity, self.score = record.severity(self.ecosystem, (self.source, self.name))
        self.link = record.link

    def key(self):
        return (self.image, self.name, self.arch, self.advisory, self.installed, self.path)

    def severity_key(self):
        return (-osv_records.rank(self.severity), *self.key()[1:], self.image)

    def texts_of(self, columns):
        """The columns with their texts. The severity has the score with it, unless this is a column too."""
        texts = self.texts()
        if "score" not in columns:
            texts["severity"] = f"{texts['severity']} {texts['score']}".rstrip()
        return [(column, texts[column]) for column in columns]

    def texts(self):
        """The text for each column."""
        record = self.record
        return {
            "image": self.image,
            "digest": self.digest,
            "severity": self.severity,
            "score": "" if self.score is None else str(self.score),
            "package": self.package,
            "installed": self.installed,
            "fixed": self.fixed,
            "advisory": self.advisory,
            "aliases": " ".join(record.names()) if record else "",
            "published": record.published if record else "",
            "path": self.path,
            "summary": record.summary if record else "",
            "link": self.link,
            "source": self.source,
            "ecosystem": self.ecosystem,
        }


class Report:
    """The images with findings or none, the rows, and the answers that have no findings."""

    def __init__(self, images, rows, refused):
        self.images = images
        self.rows = rows
        self.refused = refused
        self.has_records = False
        self.ignored = 0
        self.filtered = 0

    def columns(self):
        """The names of the columns of the table."""
        columns = ["package", "installed", "fixed", "advisory", "path"]
        if self.has_records:
            columns = ["severity", "package", "installed", "fixed", "advisory", "aliases", "published", "path", "summary", "link"]
        return ["image", *columns] if len(self.images) > 1 else columns

    def join(self, records):
        """Takes the records, and sorts the rows by severity."""
        self.has_records = True
        for row in self.rows:
            if row.advisory in records:
                row.join(records[row.advisory])
        self.rows.sort(key=Row.severity_key)

    def keep(self, only_fixed, severities):
        """Keeps the rows with a fix, if asked so, and those of the severities, if there are any."""
        kept = [row for row in self.rows if (row.fixed or not only_fixed) and (not severities or row.severity in severities)]
        self.filtered = len(self.rows) - len(kept)
        self.rows = kept

    def has_at_least(self, severity):
        """Whether a row is of this severity or a greater one."""
        return any(osv_records.rank(row.severity) >= osv_records.rank(severity) for row in self.rows)

    def summary(self):
        rows, images = self.rows, [image.name for image in self.images]
        fixable = sum(1 for row in rows if row.fixed)
        packages = len({(row.image, row.package, row.installed) for row in rows})
        advisories = len({row.advisory for row in rows})
        clean = len(set(images) - {row.image for row in rows})
        of = f"in {counted(packages, 'package')} by {counted(advisories, 'advisory', 'advisories')}, {fixable} with a fix"
        where = images[0] if len(images) == 1 else f"{counted(len(images), 'image')}, {clean} without findings"
        return f"{counted(len(rows), 'finding')} {of} ({where})"

    def skipped(self):
        """What was skipped of lists of components, for each image of which something was."""
        numbers = {image.name: image.skipped for image in self.images if image.skipped}
        return [f"{counted(number, 'component')} of {name}" for name, number in numbers.items()]

    def severity_counts(self):
        """The number of rows of each severity that occurs, the greatest first."""
        words = [row.severity for row in self.rows]
        return {word: words.count(word) for word in (*reversed(osv_records.SEVERITIES), osv_records.UNKNOWN) if word in words}

    def further_summary(self):
        """Further lines of the summary: the severities, those that are unknown, what is not shown, and what of lists was skipped."""
        if self.has_records and self.rows:
            yield ", ".join(f"{number} {word}" for word, number in self.severity_counts().items())
        unknown = sorted({row.advisory for row in self.rows if row.severity == osv_records.UNKNOWN})
        if self.has_records and unknown:
            yield f"of unknown severity, which no threshold counts: {listed(unknown)}"
        hidden = [f"{self.ignored} ignored"] * (self.ignored > 0) + [f"{self.filtered} of other kinds"] * (self.filtered > 0)
        if hidden:
            yield f"not shown: {', '.join(hidden)}"
        if self.skipped():
            yield f"skipped, and not scanned: {listed(self.skipped())}"


def listed(names, most=10):
    """The first names of a list, and how many there are besides."""
    more = len(names) - most
    return ", ".join(names[:most]) + (f" and {more} more" if more > 0 else "")


def read(lines):
    """The report of answers, one a line."""
    images, rows, refused = [], [], []
    for line in lines:
        if not line.strip():
            continue
        try:
            answer = json.loads(line)
            if not isinstance(answer, dict) or answer.get("reply") != "good":
                raise ValueError("not an answer of findings")
            image = Image(answer)
            rows += [Row(finding, image) for finding in answer["findings"]]
            images.append(image)
        except (ValueError, KeyError, TypeError, RecursionError):
            refused.append(shortened(printable(line.rstrip("\n"))))
    name_architectures(rows)
    return Report(images, sorted(rows, key=Row.key), refused)


def name_architectures(rows):
    """Shows the architecture of the packages that an image has for several."""
    seen = {}
    for row in rows:
        seen.setdefault((row.image, row.name), set()).add(row.arch)
    for row in rows:
        if len(seen[row.image, row.name]) > 1 and row.arch:
            row.package = f"{row.name}:{row.arch}"
