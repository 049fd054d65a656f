"""The base score of CVSS 3.0 and 3.1, by the formula of the standard (section 7.1 of https://www.first.org/cvss/v3.1/specification-document)."""

import math

WEIGHTS = {
    "AV": {"N": 0.85, "A": 0.62, "L": 0.55, "P": 0.2},
    "AC": {"L": 0.77, "H": 0.44},
    "PR": {"N": 0.85, "L": 0.62, "H": 0.27},
    "UI": {"N": 0.85, "R": 0.62},
    "S": {"U": 0, "C": 0},
    "C": {"H": 0.56, "L": 0.22, "N": 0},
    "I": {"H": 0.56, "L": 0.22, "N": 0},
    "A": {"H": 0.56, "L": 0.22, "N": 0},
}
# of PR if the scope changes
CHANGED_PRIVILEGES = {"N": 0.85, "L": 0.68, "H": 0.5}
# the temporal and environmental metrics may stand in a vector, and the base score does not depend on them
OTHER_METRICS = {
    "E": "XUPFH", "RL": "XOTWU", "RC": "XURC", "CR": "XLMH", "IR": "XLMH", "AR": "XLMH",
    "MAV": "XNALP", "MAC": "XLH", "MPR": "XNLH", "MUI": "XNR", "MS": "XUC", "MC": "XNLH", "MI": "XNLH", "MA": "XNLH",
}
# the lowest score of each word (section 5)
RATINGS = ((9.0, "critical"), (7.0, "high"), (4.0, "medium"), (0.1, "low"), (0.0, "none"))


def metrics(vector):
    """The metrics of a vector. Raises ValueError if it is not one of CVSS 3.0 or 3.1."""
    version, *parts = vector.split("/")
    if version not in ("CVSS:3.0", "CVSS:3.1"):
        raise ValueError("neither CVSS:3.0 nor CVSS:3.1")
    found = {}
    for part in parts:
        metric, _, value = part.partition(":")
        allowed = WEIGHTS.get(metric) or OTHER_METRICS.get(metric, "")
        if len(value) != 1 or value not in allowed or metric in found:
            raise ValueError(f"not a metric, or a second time: {part}")
        found[metric] = value
    if not WEIGHTS.keys() <= found.keys():
        raise ValueError("a base metric is missing")
    return found


def roundup(number):
    """The least number with one decimal that is at least the given one, by appendix A of CVSS 3.1."""
    whole = math.floor(number * 100000 + 0.5)
    if whole % 10000 == 0:
        return whole / 100000
    return (whole // 10000 + 1) / 10


def base_score(vector):
    """The base score of a vector, from 0.0 to 10.0. Raises ValueError if it is not one of CVSS 3.0 or 3.1."""
    found = metrics(vector)
    weight = {metric: weights[found[metric]] for metric, weights in WEIGHTS.items()}
    changed = found["S"] == "C"
    if changed:
        weight["PR"] = CHANGED_PRIVILEGES[found["PR"]]
    base = 1 - (1 - weight["C"]) * (1 - weight["I"]) * (1 - weight["A"])
    impact = 7.52 * (base - 0.029) - 3.25 * (base - 0.02) ** 15 if changed else 6.42 * base
    if impact <= 0:
        return 0.0
    exploitability = 8.22 * weight["AV"] * weight["AC"] * weight["PR"] * weight["UI"]
    return roundup(min((1.08 if changed else 1) * (impact + exploitability), 10))


def rating(score):
    """The word for a base score."""
    return next(word for lowest, word in RATINGS if score >= lowest)
