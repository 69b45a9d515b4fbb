"""A report as one page without outside parts: no script, no picture or font from elsewhere."""

from __future__ import annotations

from html import escape
from typing import Optional

from vutselqi.escapes import plain
from vutselqi.pictures import NO_DOT, can_draw, svg_of
from vutselqi.places import Place
from vutselqi.report import Finding, Report, Row

POLICY = "default-src 'none'; style-src 'unsafe-inline'"
STYLE = """
body { font: 16px/1.5 system-ui, sans-serif; margin: 2rem auto; max-width: 70rem; padding: 0 1rem; color: #222; }
html { background: #fff; } h1 { font-size: 1.5rem; } h2 { font-size: 1.15rem; margin-top: 2.5rem; }
table { border-collapse: collapse; } th, td { border: 1px solid #ccc; padding: .3rem .7rem; text-align: left; }
code, pre { font-family: ui-monospace, monospace; font-size: .9em; }
pre { overflow-x: auto; background: #f6f6f2; padding: .6rem; }
td.quiet { color: #17632b; } td.loud { color: #8a2b00; font-weight: 600; }
.finding { padding-left: 1rem; margin: 1rem 0; border-left: 4px solid; } figure { margin: 1rem 0; }
.error { border-color: #b03030; } .warning { border-color: #c98a00; } .note { border-color: #3a75b0; }
.lines pre { white-space: pre-wrap; overflow-wrap: anywhere; }
"""
QUIET = {"same", "depends"}


def shown(text: str) -> str:
    """A text as it can stand in the page."""
    return escape(plain(text))


def text_of(report: Report) -> str:
    """The page."""
    parts = [f"<p>{shown(report.summary)}</p>" if not report.trouble else trouble(report)]
    if report.rows:
        parts.append(table(report.rows))
    parts += [f"<p>{shown(note)}</p>" for note in report.notes]
    if any(finding.world for finding in report.findings) and not can_draw():
        parts.append(f"<p>{shown(NO_DOT)}</p>")
    for number, row in enumerate(report.rows):
        if row.findings:
            parts.append(f'<h2 id="kind{number}"><code>{shown(row.kind.text)}</code>: {shown(row.verdict)}</h2>')
            parts += [section(finding) for finding in row.findings]
    parts += [section(finding) for finding in report.others]
    return document(report.title, "\n".join(parts))


def document(title: str, body: str) -> str:
    """A page of this title and body."""
    return (
        '<!DOCTYPE html>\n<html lang="en">\n<head>\n<meta charset="utf-8">\n'
        f'<meta http-equiv="Content-Security-Policy" content="{escape(POLICY)}">\n'
        '<meta name="viewport" content="width=device-width, initial-scale=1">\n'
        f"<title>{shown(title)}</title>\n<style>{STYLE}</style>\n</head>\n<body>\n"
        f"<h1>{shown(title)}</h1>\n{body}\n</body>\n</html>\n"
    )


def table(rows: list[Row]) -> str:
    """The kinds of request, a row each; a row with findings leads to them."""
    lines = ["<table>", "<tr><th>Principal</th><th>Action</th><th>Resource</th><th>Verdict</th></tr>"]
    for number, row in enumerate(rows):
        verdict = shown(row.verdict)
        if row.findings:
            verdict = f'<a href="#kind{number}">{verdict}</a>'
        cells = "".join(
            f"<td><code>{shown(text)}</code></td>"
            for text in (row.kind.principal, row.kind.action, row.kind.resource + row.kind.link)
        )
        mood = "quiet" if row.verdict in QUIET else "loud"
        lines.append(f'<tr>{cells}<td class="{mood}">{verdict}</td></tr>')
    return "\n".join([*lines, "</table>"])


def section(finding: Finding) -> str:
    """A finding: its sentence, its details, where it is, its picture, and the lines that it stands on."""
    parts = [f'<div class="finding {finding.level}">', f"<p>{shown(finding.sentence)}</p>"]
    if finding.details:
        parts.append("<ul>" + "".join(f"<li>{shown(detail)}</li>" for detail in finding.details) + "</ul>")
    parts.append(source(finding.place))
    picture = svg_of(finding.world, finding.code == "world") if finding.world else None
    if picture:
        parts.append(f"<figure>{picture}</figure>")
    if finding.lines:
        lines = "\n".join(map(shown, finding.lines))
        parts.append(f'<details class="lines"><summary>Lines of the program</summary><pre>{lines}</pre></details>')
    return "\n".join([*filter(None, parts), "</div>"])


def source(place: Optional[Place]) -> str:
    """A place in a file, with its line."""
    if not place:
        return ""
    excerpt = "\n".join(map(escape, place.excerpt))
    return f"<p><code>{shown(place.text)}</code></p>" + (f"<pre>{excerpt}</pre>" if excerpt else "")


def trouble(report: Report) -> str:
    """What went wrong."""
    found = report.trouble
    if not found:
        return ""
    advice = f"<p>What to do: {shown(found.advice)}</p>" if found.advice else ""
    line = f"<p><code>{shown(found.line)}</code></p>" if found.line else ""
    return f'<div class="finding error"><p>{shown(found.sentence)}</p>{source(found.place)}{advice}{line}</div>'
