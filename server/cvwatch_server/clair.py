"""The forms of Clair v4's answers: index reports, vulnerability reports and notifications. What they say is cvwatch's."""

from typing import Any, Callable, Iterable

from .records import Records

# what a finding and a component of `cvwatch sbom` say of a package
FACTS = ("kind", "name", "version", "arch", "source", "source_version", "ecosystem", "path")
SEVERITIES = {"none": "Negligible", "low": "Low", "medium": "Medium", "high": "High", "critical": "Critical"}
SYSTEMS = {"Debian": ("debian", "Debian GNU/Linux"), "Alpine": ("alpine", "Alpine Linux"), "Ubuntu": ("ubuntu", "Ubuntu")}
Facts = tuple[str, ...]
Answer = dict[str, Any]
# gives what is shown of a record by the names of its feed and its own
Lookup = Callable[[str, str], Any]


def facts_of(package: dict[str, Any]) -> Facts:
    """The facts by which packages differ."""
    return tuple(str(package.get(fact) or "") for fact in FACTS)


def package_of(name: str, facts: Facts) -> Answer:
    """A package in the form of Clair."""
    kind, package, version, arch, source, source_version, _, _ = facts
    of_source = {"id": "", "name": source, "version": source_version, "kind": "source"} if kind in ("deb", "apk") else None
    return {"id": name, "name": package, "version": version, "kind": "binary", "arch": arch, "normalized_version": "", "source": of_source}


def distribution_of(name: str, ecosystem: str) -> Answer:
    """The system of an ecosystem as `Debian:12`."""
    system, _, release = ecosystem.partition(":")
    word, title = SYSTEMS.get(system, (system.lower(), system))
    version = release.removeprefix("v")
    return {"id": name, "did": word, "name": title, "version": version, "version_id": version, "pretty_name": f"{title} {version}".strip()}


class Numbered:
    """Packages and distributions with the ids by which a report refers to them."""

    def __init__(self, packages: Iterable[dict[str, Any]]):
        self.ids: dict[Facts, str] = {}
        for facts in sorted(map(facts_of, packages)):
            self.ids.setdefault(facts, str(len(self.ids) + 1))
        # those of npm and PyPI belong to no distribution
        systems = sorted({facts[6] for facts in self.ids if ":" in facts[6] or facts[0] in ("deb", "apk")})
        self.systems = {system: str(place) for place, system in enumerate(systems, 1)}

    def members(self) -> Answer:
        """The members of a report."""
        return {
            "packages": {name: package_of(name, facts) for facts, name in self.ids.items()},
            "distributions": {name: distribution_of(name, system) for system, name in self.systems.items()},
            "environments": {name: [self.environment(facts)] for facts, name in self.ids.items()},
        }

    def environment(self, facts: Facts) -> Answer:
        """Where a package was found."""
        return {"package_db": facts[7], "distribution_id": self.systems.get(facts[6], "")}


def index_report(digest: str, packages: list[dict[str, Any]] | None, state: str, error: str = "") -> Answer:
    """The report of an image that was indexed, or of one for which this failed."""
    numbered = Numbered(packages or [])
    return {"manifest_hash": digest, "state": state, "success": not error, "err": error, **numbered.members()}


def vulnerability_of(finding: dict[str, Any], lookup: Lookup, osv_records: Any) -> Answer:
    """What is known of the advisory of a finding, and for the package of the finding."""
    record = lookup(finding["feed"], finding["advisory"])
    facts = facts_of(finding)
    found: Answer = {
        "updater": finding["feed"],
        "name": finding["advisory"],
        "description": "",
        "issued": "",
        "links": osv_records.osv_page(finding["advisory"]),
        "severity": "unknown",
        "normalized_severity": "Unknown",
        "fixed_in_version": finding.get("fixed") or "",
        "package": {"id": "", "name": facts[4] or facts[1], "version": "", "kind": "source"},
        "distribution": distribution_of("", facts[6]),
    }
    if record is not None:
        word, score = record.severity(facts[6], (facts[4], facts[1]))
        found["description"] = " ".join(filter(None, [record.summary, *record.names()]))
        found["issued"] = f"{record.published}T00:00:00Z" if record.published else ""
        found["links"] = record.link
        found["severity"] = word if score is None else f"{word} {score}"
        found["normalized_severity"] = SEVERITIES.get(word, "Unknown")
    return found


def vulnerability_report(answer: dict[str, Any], packages: list[dict[str, Any]] | None, records: Records) -> Answer:
    """The report of a good image: its findings, and all packages where these are known."""
    findings = answer["findings"]
    numbered = Numbered(findings if packages is None else [*packages, *findings])
    vulnerabilities: dict[str, Answer] = {}
    of_package: dict[str, list[str]] = {}
    names: dict[tuple[str, ...], str] = {}
    for finding in findings:
        # an advisory is the same for all packages of one source that have the same fix
        key = (finding["feed"], finding["advisory"], finding["ecosystem"], finding["source"] or finding["name"], finding["fixed"] or "")
        if key not in names:
            names[key] = str(len(names) + 1)
            vulnerabilities[names[key]] = {"id": names[key], **vulnerability_of(finding, records.record, records.osv_records)}
        of_package.setdefault(numbered.ids[facts_of(finding)], []).append(names[key])
    return {
        "manifest_hash": answer["image"],
        **numbered.members(),
        "vulnerabilities": vulnerabilities,
        "package_vulnerabilities": of_package,
    }


def reason_of(bad: dict[str, Any]) -> str:
    """Why an image is bad, as a text."""
    members = ", ".join(f"{name} {value}" for name, value in bad.items() if name != "cause")
    return f"{bad.get('cause', 'bad_image')}: {members}" if members else str(bad.get("cause", "bad_image"))
