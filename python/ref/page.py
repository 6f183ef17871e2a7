"""Fields as one page of HTML: the sheet, and each octet beside what it is. It stands for itself: no script, nothing
from elsewhere."""
from __future__ import annotations

from html import escape

from paltinoma import CATEGORIES, Record

from ref.answers import Answer, Session, advice, field_data, map_data, no, number_data, ok, title
from ref.lines import Asked
from ref.octets import Row, beside, rows
from ref.why import Why, reading, why

STYLE = """
:root { color-scheme: light dark; --dim: #666; --line: #ccc; --wrong: #b00020; --shade: #f3f3f3 }
@media (prefers-color-scheme: dark) { :root { --dim: #aaa; --line: #444; --wrong: #ff8a80; --shade: #222 } }
body { font: 1rem/1.45 system-ui, sans-serif; margin: 0 auto; max-width: 46rem; padding: 0 1rem 2rem }
h1 { font-size: 1.35rem; margin: 1.5rem 0 .25rem } h2 { font-size: 1.05rem; margin: 1.5rem 0 .5rem }
.octets, td.bits, td.number, pre { font-family: ui-monospace, Menlo, Consolas, monospace }
.octets { font-size: 1.1rem; margin: .25rem 0 }
table { border-collapse: collapse; width: 100% }
td, th { border-top: 1px solid var(--line); padding: .2rem .6rem .2rem 0; text-align: left; vertical-align: top }
th { font-weight: 600 } tbody th { background: var(--shade); padding-left: .4rem }
td.bits, td.key, td.number { white-space: nowrap; width: 1% } td.number { text-align: right }
@media (max-width: 30rem) { body { font-size: .8125rem; padding: 0 .5rem 2rem } td, th { padding-right: .4rem } }
.spare, .flag, .behind { color: var(--dim) }
.wrong { color: var(--wrong) } p.wrong { font-weight: 600 } tr.wrong td:first-child::before { content: ">" }
.unread { color: var(--dim); font-style: italic }
pre { white-space: pre-wrap } p { overflow-wrap: anywhere } small { color: var(--dim); font-weight: 400 }
@media print {
  :root { color-scheme: light; --dim: #444; --line: #999; --wrong: #000; --shade: #eee }
  body { font-size: 9pt; line-height: 1.2; max-width: none; padding: 0 } td, th { padding-bottom: 0; padding-top: 0 }
  article + article { break-before: page } tr { break-inside: avoid } .wrong { text-decoration: underline }
}
"""
NARROW = 8  # octets that a telephone has room for in a line
HEAD = f"""<!DOCTYPE html>
<html lang="en">
<head>
<meta charset="utf-8">
<meta name="viewport" content="width=device-width, initial-scale=1">
<title>Reserved Expansion Field</title>
<style>{STYLE}</style>
</head>
<body>
"""
FOOT = "</body>\n</html>\n"


def page(session: Session, asked: Asked) -> Answer:
    """The article of one field."""
    cat, field, data = field_data(asked)
    record, refused = reading(session.desk, cat, field)
    data.update(map_data(cat, field, record, refused))
    if record is not None:
        data["numbers"] = [number_data(number) for number in record.values()]
        told = sheet_table(record, session.desk.sheet(cat, field))
        return ok(data, article(asked, told, rows(cat, field, record, None)))
    assert refused is not None
    told = why_text(why(session.desk, cat, field, refused))
    return no(data, refused, article(asked, told, rows(cat, field, None, refused)))


def article(asked: Asked, told: str, found: list[Row]) -> str:
    """Heading, where it stands, the octets, what was told, and the map."""
    where = f"<p><small>{escape(asked.where)}</small></p>\n" if asked.where else ""
    octets = f'<p class="octets">{asked.field().hex(" ").upper() or "no octets"}</p>\n'
    octet_map = f"<h2>Octets</h2>\n{map_table(asked.cat(), found)}" if found else ""
    return f"<article>\n<h1>{escape(upper(title(asked.cat())))}</h1>\n{where}{octets}{told}{octet_map}</article>\n"


def upper(text: str) -> str:
    return text[:1].upper() + text[1:]


def cells(*told: tuple[str, str]) -> str:
    """Cells of a row: the class of each and its text."""
    return "".join(f'<td class="{kind}">{escape(text)}</td>' for kind, text in told)


def sheet_table(record: Record, text: str) -> str:
    """Every line of the sheet, and beside a number what it is in its unit; the names of the items have room for a
    line below."""
    told = []
    for key, value in (row.split("=") for row in text.splitlines()):
        if key == "items":
            told.append(f'<tr>{cells(("key", key))}<td colspan="2">{escape(value).replace(",", ",<wbr>")}</td></tr>\n')
            continue
        unit = beside(record[key]) if key in record else ""
        told.append(f'<tr>{cells(("key", key), ("number", value), ("unit", unit))}</tr>\n')
    return "<h2>Sheet</h2>\n<table>\n" + "".join(told) + "</table>\n"


def why_text(told: Why) -> str:
    bits = "<pre>" + escape("\n".join(told.compared())) + "</pre>\n" if told.right else ""
    marked = "\n".join(told.marked(NARROW))
    paragraphs = "".join(f"<p>{escape(line)}</p>\n" for line in [*told.subject, *told.facts, advice(told.refused)])
    return f'<p class="wrong">{escape(upper(str(told.refused)))}</p>\n<pre>{escape(marked)}</pre>\n{bits}{paragraphs}'


def section(cat: int, name: str) -> str:
    """Where the paper prints a part or subfield."""
    known = CATEGORIES.get(cat)
    found = [item.section for item in known.items if item.name == name.split(" ")[0]] if known else []
    return f" <small>{known.document}, {found[0]}</small>" if known and found else ""


def groups(found: list[Row]) -> list[list[Row]]:
    """The rows of each part or subfield, which begin with a name, and of what was not read."""
    out: list[list[Row]] = []
    for row in found:
        if row.name or row.text and not row.bits or not out:
            out.append([])
        out[-1].append(row)
    return out


def map_row(row: Row) -> str:
    at = str(row.at) if row.octet else ""
    said = f"{row.bits}: {row.text}" if row.text and row.bits else row.text
    return (
        f'<tr class="{row.kind}">{cells(("bits", at), ("bits", row.octet), ("bits", row.shown), ("said", said))}</tr>\n'
    )


def map_table(cat: int, found: list[Row]) -> str:
    """A heading for each part and subfield, and below it a row for each run of bits in each octet."""
    told = []
    for own in groups(found):
        heading = (
            f'<tr><th colspan="4">{escape(own[0].name)}{section(cat, own[0].name)}</th></tr>\n' if own[0].name else ""
        )
        told.append(f"<tbody>\n{heading}{''.join(map(map_row, own))}</tbody>\n")
    return "<table>\n" + "".join(told) + "</table>\n"
