"""The page's frame: its style, its head, what it says of itself, and the table of what is below."""

from __future__ import annotations

from theorem_order import first_sentence
from theorem_page import Page, count, how_to_read, library, lines_in, prose

STYLE = """
:root {
  color-scheme: light dark;
  --ink: #1d2126; --faint: #5c6670; --paper: #fff; --box: #f5f6f8; --edge: #dfe3e8; --link: #0b57a4; --name: #8a2c0d; --here: #fff3c9
}
@media (prefers-color-scheme: dark) {
  :root { --ink: #dfe3e8; --faint: #9aa5b1; --paper: #14171b; --box: #1c2127; --edge: #313943; --link: #86b9f2; --name: #f0a989; --here: #3d3414 }
}
* { box-sizing: border-box }
html { scroll-padding-top: 1rem }
body { margin: 0; color: var(--ink); background: var(--paper); font: 1rem/1.55 system-ui, "Segoe UI", "DejaVu Sans", sans-serif }
a { color: var(--link); text-decoration-thickness: 1px; text-underline-offset: 2px }
.skip { position: absolute; left: -99rem }
.skip:focus { z-index: 1; left: 1rem; top: 1rem; padding: .4rem .8rem; background: var(--paper); outline: 2px solid var(--link) }
.page { display: grid; grid-template-columns: 14rem minmax(0, 54rem); gap: 0 3rem; justify-content: center; padding: 0 1.25rem }
header, footer { grid-column: 2 }
main { grid-column: 2; padding-bottom: 4rem }
nav { grid-column: 1; grid-row: 1 / span 3; font-size: .875rem }
nav > div { position: sticky; top: 0; max-height: 100vh; overflow-y: auto; padding: 2rem 0 }
nav ul { list-style: none; margin: 0; padding: 0 }
nav li { display: flex; justify-content: space-between; gap: .5rem; padding: .1rem 0 }
nav a { text-decoration: none }
nav a:hover, nav a:focus { text-decoration: underline }
nav span, .u, h3 small, caption { color: var(--faint) }
nav span { font-variant-numeric: tabular-nums }
nav p { font-weight: 600; margin: 0 0 .5rem }
h1 { font-size: 2rem; line-height: 1.2; margin: 2.5rem 0 1rem }
h2 { font-size: 1.5rem; line-height: 1.25; margin: 4rem 0 .75rem; padding-top: 1.5rem; border-top: 2px solid var(--edge) }
h3 { font-size: 1.125rem; margin: 2.5rem 0 .5rem }
h3 small { font: .8125rem ui-monospace, "SF Mono", Menlo, Consolas, "DejaVu Sans Mono", monospace; margin-left: .75rem }
p { margin: .5rem 0; max-width: 46rem }
h2 + p, h3 + p, h3 + p + .h { margin-bottom: 1rem }
.d { margin: 0 0 1.5rem }
.d > p { margin: 0 0 .35rem }
.g { margin: 2rem 0 .6rem; padding-left: .8rem; border-left: 3px solid var(--edge) }
.u, .d > .u { font-size: .8125rem; margin: .3rem 0 0; max-width: none }
pre, code { font-family: ui-monospace, "SF Mono", Menlo, Consolas, "DejaVu Sans Mono", monospace; font-size: .875em }
pre { margin: 0; padding: .6rem .8rem; background: var(--box); border: 1px solid var(--edge); border-radius: 5px; font-size: .8438rem; line-height: 1.5 }
pre code { display: block; font-size: inherit; white-space: pre-wrap; overflow-wrap: break-word; padding-left: 4ch; text-indent: -4ch }
pre .j { padding-left: 12ch; text-indent: -12ch }
pre a { text-decoration-color: color-mix(in srgb, currentColor 35%, transparent) }
pre .n { color: var(--name); font-weight: 600; text-decoration: none }
pre i { color: var(--faint); font-style: normal }
:target { scroll-margin-top: 1rem }
.d:target pre, tr:target { background: var(--here) }
table { border-collapse: collapse; width: 100%; font-size: .9375rem; margin: .75rem 0 1.5rem }
th, td { text-align: left; vertical-align: top; padding: .3rem .75rem .3rem 0; border-bottom: 1px solid var(--edge); font-weight: 400 }
tbody th, tfoot th, .r { white-space: nowrap }
thead th { color: var(--faint); font-size: .8125rem }
.r { text-align: right; font-variant-numeric: tabular-nums; padding-right: .5rem }
tfoot th, tfoot td { font-weight: 600 }
p, td, h3 small { overflow-wrap: anywhere }
dl { display: grid; grid-template-columns: minmax(9rem, 15rem) 1fr; gap: .5rem 1.5rem; margin: 1rem 0 }
dd { margin: 0 }
footer { color: var(--faint); font-size: .875rem; border-top: 1px solid var(--edge); padding: 1rem 0 3rem }
@media (max-width: 64rem) {
  .page { display: block; max-width: 56rem; margin: 0 auto }
  nav { display: none }
}
@media (max-width: 40rem) {
  dl { display: block }
  dd { margin: 0 0 .75rem }
  h3 small { display: block; margin: 0 }
  table, tbody, tfoot { display: block }
  thead { position: absolute; left: -99rem }
  tr { display: flex; flex-wrap: wrap; gap: 0 .75rem; padding: .4rem 0; border-bottom: 1px solid var(--edge) }
  tbody th, tbody td, tfoot th, tfoot td { border: 0; padding: 0 }
  td:nth-child(2) { order: 1; flex-basis: 100% }
  td:nth-child(3) { margin-left: auto }
}
@media print {
  :root { --ink: #000; --faint: #444; --paper: #fff; --box: #fff; --edge: #bbb; --link: #000; --name: #000; --here: #fff }
  nav, .skip { display: none }
  .page { display: block; padding: 0 }
  body { font-size: 9.5pt }
  pre { font-size: 7.5pt; padding: .3rem .5rem }
  a { text-decoration: none }
  .d, tr { break-inside: avoid }
  h2, h3, .g, .d > p { break-after: avoid }
}
""".strip()


def title(page: Page) -> str:
    return f"What is proved of {page.contract.key.split('.')[0]}"


def about(page: Page) -> str:
    """What the page is."""
    contract = page.contract
    crate, module, name = contract.key.split(".")
    parts = [part for chapter in page.chapters for part in chapter.parts]
    files = len({part.file for part in parts})
    lines = sum(part.lines for part in parts)
    sentences = [
        f"All that <code>{crate}</code> does, the function <code>{name}</code> does: it takes the command's words, a source, a sink and a disk. What is proved of "
        f"the program is the contract of this function, {count(len(contract.clauses), 'clause')} (<code>crates/{crate}/src/{module}.rt</code>). This page has the "
        f"contract, and behind it each definition that it rests on, taken from the sources: {count(len(parts), 'definition')} in {count(files, 'file')}, "
        f"{count(lines, 'line')} without comments. Who doubts the promise reads from here to the end, and needs nothing else.",
        "The contract comes first. Then come the definitions, the lowest first: whatever a definition is made of stands above it, and each name leads there. "
        'At the end stand <a href="#library">the words of the toolchain\'s library</a>, which the definitions take as known. '
        "Below each definition stands where it is used. Proofs aren't here: the toolchain checks them, and the promise says nothing of how they go.",
    ]
    return "".join(f"<p>{each}</p>" for each in sentences)


def row(key: str, name: str, about: str, number: str, lines: int) -> str:
    return f'<tr><th scope=row><a href="#{key}">{name}</a><td>{about}<td class=r>{number}<td class=r>{lines:,}'


def contents(page: Page) -> str:
    """The table of the crates, with counts."""
    contract = page.contract
    rows = [row("promise", "What is promised", f"the contract of <code>{contract.key.split('.')[-1]}</code>", f"{len(contract.clauses)} clauses", contract.lines)]
    rows += [row(each.crate, each.crate, prose(first_sentence(each.about)), str(len(each.parts)), lines_in(each)) for each in page.chapters]
    parts = sum(len(chapter.parts) for chapter in page.chapters)
    foot = f"<tfoot><tr><th scope=row>All crates<td><td class=r>{parts:,}<td class=r>{sum(map(lines_in, page.chapters)):,}"
    head = "<thead><tr><th scope=col>Chapter<th scope=col>About<th scope=col class=r>Definitions<th scope=col class=r>Lines"
    return f"<table>{head}<tbody>{''.join(rows)}{foot}</table>\n"


def aside(page: Page) -> str:
    """The chapters, beside the text."""
    items = [("promise", "What is promised", len(page.contract.clauses)), *((each.crate, each.crate, len(each.parts)) for each in page.chapters)]
    listed = "".join(f'<li><a href="#{key}">{name}</a><span>{number}</span>' for key, name, number in items)
    return f'<nav aria-label="Chapters"><div><p><a href="#top">Top</a></p><ul>{listed}<li><a href="#library">The library</a></ul></div></nav>'


def at_end(used: dict[str, set[str]]) -> str:
    """The words of the toolchain."""
    told = (
        f"{count(len(used), 'word')} that the definitions take as known, each with the module that a file takes it from. The toolchain has them with their own "
        "definitions; <code>Prim</code> is the language itself, and <code>std</code> that of the code."
    )
    return f'<section aria-labelledby="library"><h2 id="library">The words of the toolchain\'s library</h2><p>{told}</p>\n{library(used)}</section>\n'


def whole(page: Page, used: dict[str, set[str]]) -> str:
    policy = "default-src 'none'; style-src 'unsafe-inline'"
    parts = [
        f'<!DOCTYPE html>\n<html lang="en"><head><meta charset="utf-8"><title>{title(page)}</title>\n',
        f'<meta name="viewport" content="width=device-width, initial-scale=1"><meta http-equiv="Content-Security-Policy" content="{policy}">\n',
        f'<style>\n{STYLE}\n</style></head>\n<body id="top"><a class="skip" href="#main">Skip to the text</a><div class="page">\n{aside(page)}\n',
        f"<header><h1>{title(page)}</h1>{about(page)}</header>\n",
        f'<main id="main">\n<section aria-labelledby="contents"><h2 id="contents">What is below</h2>\n{contents(page)}</section>\n',
        f'<section aria-labelledby="reading"><h2 id="reading">How to read it</h2>\n{how_to_read()}</section>\n',
        page.promise(),
        *map(page.chapter, page.chapters),
        at_end(used),
        "</main>\n<footer><p>Written by <code>tools/theorem.py</code> from the sources.</p></footer>\n</div></body></html>\n",
    ]
    return "".join(parts)
