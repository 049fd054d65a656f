"""Findings as one page of HTML, which needs no other file, and no script to be read."""

import base64
import hashlib
import html
import urllib.parse

import osv_records

STYLE = """
:root { color-scheme: light dark; font: 15px/1.45 system-ui, sans-serif; }
body { margin: 1.5rem auto; max-width: 120rem; padding: 0 1rem; }
h1 { font-size: 1.3rem; }
input { font: inherit; padding: .35rem .6rem; width: min(30rem, 100%); box-sizing: border-box; }
input[type=checkbox] { width: auto; }
fieldset { border: 0; padding: 0; margin: 1rem 0; display: flex; flex-wrap: wrap; gap: .5rem 1.2rem; align-items: center; }
.whole { user-select: all; overflow-wrap: anywhere; opacity: .75; }
.wide { overflow-x: auto; }
table { border-collapse: collapse; width: 100%; }
th, td { text-align: left; padding: .35rem .7rem; border-bottom: 1px solid #8886; vertical-align: top; overflow-wrap: break-word; max-width: 30rem; }
th { white-space: nowrap; }
th button { all: unset; cursor: pointer; font-weight: 600; }
th button:focus-visible { outline: 2px solid; }
th[aria-sort=ascending] button::after { content: " \\25B2"; }
th[aria-sort=descending] button::after { content: " \\25BC"; }
td { font-family: ui-monospace, monospace; font-size: .9em; }
td.severity { border-left: 4px solid #8886; }
td.severity, td.advisory { white-space: nowrap; }
[data-severity=critical] .severity { border-left-color: #a0f; font-weight: 700; }
[data-severity=high] .severity { border-left-color: #e22; font-weight: 700; }
[data-severity=medium] .severity { border-left-color: #e90; }
[data-severity=low] .severity { border-left-color: #39c; }
td.summary { font-family: inherit; min-width: 14rem; }
.none { opacity: .6; }
.refused { border-left: 4px solid #c33; padding-left: .8rem; overflow-wrap: anywhere; }
"""

SCRIPT = """
const body = document.querySelector("tbody");
const rows = Array.from(body.rows);
const shown = document.getElementById("shown");
const search = document.getElementById("search");
const fixedOnly = document.getElementById("fixed-only");
const severityBoxes = Array.from(document.querySelectorAll("input[name=severity]"));
const filters = document.getElementById("filters");
const texts = new Map(rows.map(row => [row, row.textContent.toLowerCase()]));
const order = new Intl.Collator("en", { numeric: true });
const filter = () => {
  const words = search.value.toLowerCase().split(/\\s+/).filter(word => word);
  const hidden = new Set(severityBoxes.filter(box => !box.checked).map(box => box.value));
  let count = 0;
  for (const row of rows) {
    row.hidden = hidden.has(row.dataset.severity) || (fixedOnly.checked && !row.dataset.fixed)
      || !words.every(word => texts.get(row).includes(word));
    if (!row.hidden) count += 1;
  }
  shown.textContent = `${count} of ${rows.length} shown`;
};
filters.disabled = false;
filters.addEventListener("input", filter);
filter();
const heads = Array.from(document.querySelectorAll("th"));
heads.forEach((head, column) => head.querySelector("button").addEventListener("click", () => {
  const down = head.getAttribute("aria-sort") === "ascending";
  heads.forEach(other => other.removeAttribute("aria-sort"));
  head.setAttribute("aria-sort", down ? "descending" : "ascending");
  const keys = new Map(rows.map(row => [row, row.cells[column].dataset.order ?? row.cells[column].textContent]));
  rows.sort((a, b) => (down ? -1 : 1) * order.compare(keys.get(a), keys.get(b)));
  body.append(...rows);
}));
"""


def print_page(report):
    columns = [*report.columns(), "source", "ecosystem"]
    print_begin(title(report))
    print_images(report)
    print(f"<p>{html.escape(report.summary())}</p>")
    for line in report.further_summary():
        print(f"<p>{html.escape(line)}</p>")
    print_refused(report.refused)
    print_filters(report)
    print_rows(report, columns)
    print_end()


def title(report):
    """The name of the image, or how many there are."""
    names = [short_digest(image.name) if image.name == image.digest else image.name for image in report.images]
    return names[0] if len(names) == 1 else f"{len(names)} images" if names else "no image was scanned"


def print_images(report):
    """The heading, with the digest of the image; of several ones the digests are below it."""
    print(f"<h1>{html.escape(title(report))}</h1>")
    if len(report.images) == 1:
        print(f"<p>{digests(report.images[0])}</p>")
    elif report.images:
        print("<details><summary>Digests</summary><ul>")
        for image in report.images:
            print(f"<li>{html.escape(image.name)} {digests(image)}</li>")
        print("</ul></details>")


def digests(image):
    """The digest in short, and the whole one, which a click selects."""
    if not image.digest:
        return ""
    return f'<code>{html.escape(short_digest(image.digest))}</code> <code class="whole">{html.escape(image.digest)}</code>'


def short_digest(digest):
    algorithm, _, digits = digest.partition(":")
    return f"{algorithm}:{digits[:12]}"


def print_filters(report):
    print('<fieldset id="filters" disabled>')
    print('<label>Search <input id="search" type="search" autocomplete="off"></label>')
    for severity, count in report.severity_counts().items() if report.has_records else ():
        print(f'<label><input type="checkbox" name="severity" value="{severity}" autocomplete="off" checked> {severity} ({count})</label>')
    print('<label><input id="fixed-only" type="checkbox" autocomplete="off"> only with a fix</label>\n</fieldset>')


def print_begin(name):
    print(f"""<!doctype html>
<html lang="en">
<head>
<meta charset="utf-8">
<meta name="viewport" content="width=device-width, initial-scale=1">
<meta http-equiv="Content-Security-Policy" content="default-src 'none'; style-src 'unsafe-inline'; script-src '{script_digest(SCRIPT)}'">
<title>{html.escape(name)}</title>
<style>{STYLE}</style>
</head>
<body>""")


def print_refused(refused):
    for line in refused:
        print(f'<p class="refused">Not scanned: <code>{html.escape(line)}</code></p>')


def print_rows(report, columns):
    print(f'<p id="shown" role="status">{len(report.rows)} of {len(report.rows)} shown</p>')
    print('<div class="wide"><table><thead><tr>')
    for column in columns:
        print(f'<th scope="col"><button type="button">{column}</button></th>')
    print("</tr></thead><tbody>")
    for row in report.rows:
        print(html_row(row, columns))
    print("</tbody></table></div>")


def print_end():
    print(f"<script>{SCRIPT}</script>\n</body>\n</html>")


def html_row(row, columns):
    cells = []
    for column, text in row.texts_of(columns):
        attributes = f' class="{column}"' if column in ("severity", "advisory", "summary") else ""
        if column == "severity":
            # the greatest first, as the table begins
            attributes += f' data-order="{len(osv_records.SEVERITIES) - osv_records.rank(row.severity)}"'
        cells.append(f"<td{attributes}>{content(column, text)}</td>")
    fixed = ' data-fixed="yes"' if row.fixed else ""
    severity = f' data-severity="{row.severity}"' if "severity" in columns else ""
    return f"<tr{severity}{fixed}>{''.join(cells)}</tr>"


def content(column, text):
    """The content of a cell, escaped."""
    if column == "advisory":
        return anchor(osv_records.osv_page(text), text)
    if column == "link":
        return anchor(text, urllib.parse.urlsplit(text).netloc)
    if column == "fixed" and not text:
        return '<span class="none">none</span>'
    return html.escape(text)


def anchor(address, text):
    return f'<a href="{html.escape(address)}" rel="noreferrer">{html.escape(text)}</a>'


def script_digest(script):
    """The digest by which the page allows its own script and no other."""
    return "sha256-" + base64.b64encode(hashlib.sha256(script.encode()).digest()).decode("ascii")
