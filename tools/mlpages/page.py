"""The frame of a page: one file, with nothing loaded from elsewhere, light and dark, readable on paper."""

import html
import re

from .replies import TEXT

# The hues of the labels, from the bottom up, where there are no more than these; else they go round the circle.
HUES = (150, 212, 38, 352, 282, 190, 100, 320)
TURN = 137.5

STYLE = """
:root { color-scheme: light dark; --paper: #fdfcfa; --ink: #1d1c1a; --soft: #5d5a54; --line: #d9d5cc; --mark: #9a2c12;
  --raised: #f5f2ec;
  --tint: 60% 91%; --dot: 45% 36%; }
@media (prefers-color-scheme: dark) { :root { --paper: #161514; --ink: #ece8e1; --soft: #a8a297; --line: #3a3733;
  --mark: #f0a184; --raised: #201e1c;
  --tint: 32% 23%; --dot: 42% 62%; } }
* { box-sizing: border-box; }
body { margin: 0; background: var(--paper); color: var(--ink);
  font: 16px/1.5 Charter, "Bitstream Charter", "Iowan Old Style", Georgia, serif; }
main { max-width: 92rem; margin: 0 auto; padding: 2rem 1.25rem 4rem; }
h1 { font-size: 1.75rem; line-height: 1.2; font-weight: 600; margin: 0 0 .25rem; letter-spacing: -.01em;
  overflow-wrap: anywhere; }
h2 { font-size: 1.2rem; font-weight: 600; margin: 2.75rem 0 .75rem; padding-top: .6rem;
  border-top: 1px solid var(--line); }
h3 { font-size: 1rem; font-weight: 600; margin: 1.5rem 0 .4rem; }
p { margin: .4rem 0; max-width: 44rem; }
a { color: inherit; text-decoration-color: var(--soft); text-underline-offset: .15em; }
code, pre, .rows td, .mono { font-family: ui-monospace, "SF Mono", Menlo, Consolas, "DejaVu Sans Mono", monospace;
  font-size: .8125rem; line-height: 1.45; }
code, pre { margin: 0; white-space: pre-wrap; overflow-wrap: anywhere; }
.soft { color: var(--soft); }
.label { display: inline-block; padding: 0 .45em; border-radius: .2em;
  font: 600 .8125rem/1.5 ui-monospace, "SF Mono", Menlo, Consolas, "DejaVu Sans Mono", monospace;
  overflow-wrap: anywhere; }
[class*="hue"] { background: hsl(var(--hue) var(--tint)); color: var(--ink); }
table { border-collapse: collapse; }
th { text-align: left; font-weight: 400; font-style: italic; color: var(--soft); font-size: .875rem; }
table.plain { width: 100%; }
table.plain th, table.plain td { padding: .3rem .75rem .3rem 0; border-bottom: 1px solid var(--line);
  vertical-align: top; }
table.plain td { overflow-wrap: anywhere; }
footer { margin-top: 3rem; padding-top: .6rem; border-top: 1px solid var(--line); color: var(--soft);
  font-size: .875rem; }
svg { max-width: 100%; height: auto; display: block; }
.scroll { overflow-x: auto; }
.drawing { font: 600 13px ui-monospace, "SF Mono", Menlo, Consolas, "DejaVu Sans Mono", monospace; }
@media screen { .drawing svg { min-width: var(--least); } }
@media print { :root { --paper: #fff; --ink: #000; --soft: #444; --line: #bbb; --raised: #fff; --mark: #7a1f08;
  --tint: 60% 91%; --dot: 45% 36%; }
  body { font-size: 10.5pt; } main { padding: 0; max-width: none; } h2, h3 { break-after: avoid; } tr, .event, svg {
  break-inside: avoid; } .scroll { overflow: visible; } * { print-color-adjust: exact; } }
"""


class Html(str):
    """A text that is markup. Any other text is escaped where it goes into markup."""


def escaped(text: str) -> Html:
    """A text as markup that shows it as it is."""
    return text if isinstance(text, Html) else Html(html.escape(text, quote=True))


def joined(parts) -> Html:
    """Markup and texts one after the other."""
    return Html("".join(escaped(part) for part in parts))


def tag(name: str, *content, **attributes) -> Html:
    """An element. In an attribute's name a last `_` is dropped, another is a hyphen; None leaves the attribute out."""
    told = "".join(
        f' {key.rstrip("_").replace("_", "-")}="{html.escape(str(value), quote=True)}"'
        for key, value in attributes.items()
        if value is not None
    )
    return Html(f"<{name}{told}>{joined(content)}</{name}>")


def printed(text: str) -> Html:
    """A printed line. Signs in a text of it that turn the direction of writing turn nothing behind the text."""
    parts = re.split(f"({TEXT})", text)
    return joined(tag("bdi", part) if number % 2 else part for number, part in enumerate(parts))


def value(text: str) -> Html:
    """A value as it is printed."""
    return tag("bdi", text)


def chip(label: str, hues: dict[str, str]) -> Html:
    """The name of a label on its colour."""
    return tag("span", label, class_=f"label {hues.get(label, '')}".strip())


def hues_of(upwards: list[str]) -> dict[str, str]:
    """The class of each label's colour."""
    return {label: f"hue{number}" for number, label in enumerate(upwards)}


def hue(number: int, count: int) -> int:
    """The hue of a label, of so many, by its place from the bottom up."""
    return HUES[number] if count <= len(HUES) else round(HUES[0] + number * TURN) % 360


def hue_style(count: int) -> str:
    """The colours of so many labels."""
    return "\n".join(f".hue{number} {{ --hue: {hue(number, count)}; }}" for number in range(count)) + "\n"


def table(heads: list[str], rows, class_: str = "plain") -> Html:
    """A table of a row of heads, and rows of cells."""
    head = tag("tr", *(tag("th", one, scope="col") for one in heads))
    return tag(
        "table",
        tag("thead", head),
        tag("tbody", *(tag("tr", *(tag("td", cell) for cell in row)) for row in rows)),
        class_=class_,
    )


def page(title: str, body: Html, style: str = "", script: str = "") -> str:
    """A whole page."""
    head = joined([
        Html('<meta charset="utf-8">\n<meta name="viewport" content="width=device-width, initial-scale=1">\n'),
        Html('<meta name="color-scheme" content="light dark">\n<link rel="icon" href="data:,">\n'),
        tag("title", title), Html(f"\n<style>{STYLE}{style}</style>\n"),
    ])
    code = Html(f"<script>{script}</script>\n" if script else "")
    start = '<!DOCTYPE html>\n<html lang="en">\n<head>\n'
    return f'{start}{head}</head>\n<body>\n{tag("main", body)}\n{code}</body>\n</html>\n'
