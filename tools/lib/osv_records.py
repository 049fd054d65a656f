"""What OSV records say of findings: severity, aliases, summary, date and link (https://ossf.github.io/osv-schema/)."""

import json
import re
import urllib.parse

import cvss
from texts import printable, shortened

# the words of severity, from the least to the greatest; `unknown` is none of them
SEVERITIES = ("none", "low", "medium", "high", "critical")
UNKNOWN = "unknown"
SYNONYMS = {"moderate": "medium"}


class Record:
    """The members of an OSV record that are shown."""

    def __init__(self, record):
        self.id = record["id"]
        self.aliases = cve_first(texts(record.get("aliases")))
        self.upstream = cve_first(texts(record.get("upstream")))
        self.summary = printable(" ".join(a_text(record.get("summary")).split()))
        self.published = date(record.get("published"))
        self.link = link(record)
        self.bad_vectors = []
        self.affected = [entry for entry in entries(record.get("affected")) if isinstance(entry.get("package"), dict)]
        self.score = self.greatest_score(record)
        self.word = words_severity(record)

    def names(self):
        """The ids of the same vulnerability elsewhere, those of CVE first, and of those that the record is made of."""
        return cve_first([*self.aliases, *self.upstream])

    def greatest_score(self, member):
        """The greatest base score of CVSS 3 in the member `severity`, or None."""
        scores = []
        for severity in entries(member.get("severity")):
            if severity.get("type") == "CVSS_V3":
                vector = a_text(severity.get("score"))
                try:
                    scores.append(cvss.base_score(vector))
                except ValueError:
                    self.bad_vectors.append(shortened(printable(vector)))
        return max(scores, default=None)

    def severity(self, ecosystem, names):
        """The word of severity, and the score or None, for a package of these names."""
        of_package = [entry for entry in self.affected if is_for(entry["package"], ecosystem, names)]
        scores = [self.score] if self.score is not None else [self.greatest_score(entry) for entry in of_package]
        score = max((score for score in scores if score is not None), default=None)
        if score is not None:
            return cvss.rating(score), score
        words = [self.word, *map(words_severity, of_package)]
        return next((word for word in words if word), UNKNOWN), None


def read_records(lines, wanted):
    """The records with the wanted ids, and the numbers of the lines that are no records."""
    records, broken = {}, []
    for number, line in enumerate(lines, 1):
        if not line.strip():
            continue
        try:
            record = json.loads(line)
            if not isinstance(record["id"], str):
                raise ValueError("the id is not a text")
            if record["id"] in wanted:
                records[record["id"]] = Record(record)
        except (ValueError, KeyError, TypeError, RecursionError):
            broken.append(number)
    return records, broken


def rank(word):
    """The place of a word of severity, where -1 is that of `unknown`."""
    return SEVERITIES.index(word) if word in SEVERITIES else -1


def severity_word(value):
    """The word of severity that a text is, or None."""
    word = a_text(value).strip().lower()
    word = SYNONYMS.get(word, word)
    return word if word in SEVERITIES else None


def words_severity(member):
    """The word of severity in the specific members of a record or of an affected entry; the urgency of Debian is one too."""
    places = [("database_specific", "severity"), ("ecosystem_specific", "severity"), ("ecosystem_specific", "urgency")]
    words = (severity_word(an_object(member.get(place)).get(name)) for place, name in places)
    return next((word for word in words if word), None)


def is_for(package, ecosystem, names):
    """Whether an affected entry with this package is one for a finding: the ecosystem may stand without its release."""
    return package.get("ecosystem") in (ecosystem, ecosystem.split(":")[0]) and package.get("name") in names


def link(record):
    """The first advisory among the references, or else the first page, or else that of osv.dev."""
    references = [(a_text(one.get("type")), web_address(one.get("url"))) for one in entries(record.get("references"))]
    for wanted in ("ADVISORY", "WEB"):
        for kind, address in references:
            if kind == wanted and address:
                return address
    return osv_page(record["id"])


def osv_page(advisory):
    return "https://osv.dev/vulnerability/" + urllib.parse.quote(advisory, safe="", errors="replace")


def web_address(value):
    """An address of http or https with nothing in it that has to be quoted, or None."""
    address = a_text(value).strip()
    if not re.match(r"https?://[^/?#]", address, re.IGNORECASE):
        return None
    address = urllib.parse.quote(address, safe=":/?#[]@!$&()*+,;=%~", errors="replace")
    try:
        return address if urllib.parse.urlsplit(address).hostname else None
    except ValueError:
        return None


def date(value):
    found = re.match(r"[0-9]{4}-[0-9]{2}-[0-9]{2}", a_text(value))
    return found.group() if found else ""


def cve_first(ids):
    """Each id once, those of CVE before the others."""
    return sorted(dict.fromkeys(ids), key=lambda one: not one.startswith("CVE-"))


def a_text(value):
    return value if isinstance(value, str) else ""


def an_object(value):
    return value if isinstance(value, dict) else {}


def entries(value):
    """The objects of a list."""
    return [entry for entry in value if isinstance(entry, dict)] if isinstance(value, list) else []


def texts(value):
    return [printable(entry) for entry in value if isinstance(entry, str)] if isinstance(value, list) else []
