"""The colours of a picture, for a light ground and for a dark one.

A viewer that knows no `prefers-color-scheme` shows the light ones, on a ground of their own.
"""

STYLE = """
  text { font: 11px ui-monospace, Menlo, Consolas, "DejaVu Sans Mono", monospace; fill: #3b434c; }
  text.name { font-weight: bold; font-size: 12px; fill: #14181d; }
  text.middle { text-anchor: middle; }
  text.depth { fill: #818a95; }
  text.accepted { fill: #1a6b34; }
  text.rejected { fill: #a1261f; text-decoration: line-through; }
  rect.ground { fill: #ffffff; }
  rect.block { stroke-width: 1.3; fill: #f4f5f7; stroke: #737c87; }
  rect.before { fill: #d3e4ff; stroke: #2260b8; }
  rect.after { fill: #ffdfb3; stroke: #b05a00; }
  rect.tie { fill: #e4dcf5; stroke: #6b4fa8; }
  rect.waits { fill: none; stroke-dasharray: 6 4; }
  rect.unsent, rect.away { fill: none; stroke-dasharray: 2 3; }
  rect.refused { fill: #fdeceb; stroke: #b3261e; stroke-dasharray: 2 3; }
  rect.asked { stroke-width: 3.2; }
  path.arrow { fill: none; stroke: #818a95; stroke-width: 1.2; }
  path.head { fill: #818a95; }
  @media (prefers-color-scheme: dark) {
    text { fill: #c3cad3; }
    text.name { fill: #f2f5f8; }
    text.depth { fill: #8a939e; }
    text.accepted { fill: #7fd69a; }
    text.rejected { fill: #ff9c94; }
    rect.ground { fill: #14181d; }
    rect.block { fill: #262c34; stroke: #98a1ac; }
    rect.before { fill: #163863; stroke: #7db0ff; }
    rect.after { fill: #5a3505; stroke: #ffb454; }
    rect.tie { fill: #3d2f60; stroke: #bfa6ff; }
    rect.waits { fill: none; }
    rect.unsent, rect.away { fill: none; }
    rect.refused { fill: #48191a; stroke: #ff8a80; }
    path.arrow { stroke: #8a939e; }
    path.head { fill: #8a939e; }
  }
"""
