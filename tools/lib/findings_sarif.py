"""Findings in SARIF 2.1.0 (https://docs.oasis-open.org/sarif/sarif/v2.1.0/), with what code hosts read besides."""

import hashlib
import json
import sys
import urllib.parse

import osv_records

SCHEMA = "https://docs.oasis-open.org/sarif/sarif/v2.1.0/errata01/os/schemas/sarif-schema-2.1.0.json"
LEVELS = {"critical": "error", "high": "error", "medium": "warning", "low": "note", "none": "none", "unknown": "warning"}
# GitHub reads numbers only; each of these stands for a word where there is no score
SCORES = {"critical": 9.5, "high": 8.0, "medium": 5.5, "low": 2.0}


def print_log(report):
    """One run, with a rule for each advisory and a result for each finding."""
    json.dump({"$schema": SCHEMA, "version": "2.1.0", "runs": [run(report)]}, sys.stdout, indent=2)
    print()


def run(report):
    rows_of = {}
    for row in report.rows:
        rows_of.setdefault(row.advisory, []).append(row)
    index_of = {advisory: index for index, advisory in enumerate(rows_of)}
    return {
        "tool": {"driver": {"name": "cvwatch", "rules": [rule(rows) for rows in rows_of.values()]}},
        "invocations": [invocation(report)],
        "results": [result(row, index_of[row.advisory]) for row in report.rows],
    }


def invocation(report):
    notifications = [notification("error", f"Not scanned: {line}") for line in report.refused]
    notifications += [notification("warning", f"Skipped, and not scanned: {text}") for text in report.skipped()]
    return {"executionSuccessful": not report.refused, "toolExecutionNotifications": notifications}


def notification(level, text):
    return {"level": level, "message": {"text": text}}


def rule(rows):
    """The rule for an advisory. Its severity is the greatest of its findings."""
    row = max(rows, key=lambda row: (osv_records.rank(row.severity), row.score or 0))
    texts = row.texts()
    title = texts["summary"] or row.advisory
    further = f"{row.advisory} {texts['aliases']}".strip()
    properties = {"tags": ["security", "vulnerability", row.severity]}
    score = SCORES.get(row.severity) if row.score is None else row.score
    if score:
        properties["security-severity"] = str(score)
    return {
        "id": row.advisory,
        "name": "KnownVulnerability",
        "shortDescription": {"text": f"{row.advisory}: {title}"[:1000]},
        "fullDescription": {"text": title[:1000]},
        "helpUri": row.link,
        "help": {"text": f"{further}: {title}\n{row.link}"},
        "defaultConfiguration": {"level": LEVELS[row.severity]},
        "properties": properties,
    }


def result(row, index):
    fix = f"The fix is in {row.fixed}." if row.fixed else "No fix is known."
    return {
        "ruleId": row.advisory,
        "ruleIndex": index,
        "level": LEVELS[row.severity],
        "message": {"text": f"{row.package} {row.installed} in {row.image} is affected by {row.advisory}. {fix}"},
        "locations": [location(row)],
        "partialFingerprints": {"primaryLocationLineHash": fingerprint(row)},
    }


def location(row):
    """The package file within the image. It has no lines that matter, but hosts want one."""
    return {
        "physicalLocation": {"artifactLocation": {"uri": urllib.parse.quote(row.path, errors="replace")}, "region": {"startLine": 1}},
        "logicalLocations": [{"name": row.package, "fullyQualifiedName": f"{row.image}/{row.package}", "kind": "module"}],
    }


def fingerprint(row):
    """What is the same for one finding from run to run, also after the package was updated without the fix."""
    parts = (row.image, row.advisory, row.name, row.arch, row.path)
    return hashlib.sha256("\0".join(parts).encode("utf-8", "replace")).hexdigest()[:32] + ":1"
