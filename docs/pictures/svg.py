"""A picture as SVG text: a few shapes, in colours that follow the reader's light or dark screen."""
from html import escape

STYLE = """
  text { font: 12px system-ui, sans-serif; fill: #333 }
  .small { font-size: 11px; fill: #666 }
  .head { font-size: 13px; font-weight: 600 }
  .code { font-family: ui-monospace, monospace; font-size: 11.5px }
  .grid { stroke: #ddd; stroke-width: 1 }
  .frame { stroke: #999; stroke-width: 1; fill: none }
  .arrow { stroke: #666; stroke-width: 1.2; fill: none; marker-end: url(#tip) }
  .tip { fill: #666 }
  .paper { fill: #fff }
  .empty { fill: #f2f2f2; stroke: #bbb }
  .held { fill: #cfe3ff; stroke: #4a7fc1 }
  .primed { fill: #ffe3b0; stroke: #c18a2a }
  .done { fill: #d9d9d9; stroke: #888 }
  .c0 { stroke: #c2185b; fill: #c2185b } .c1 { stroke: #1f6fb2; fill: #1f6fb2 } .c2 { stroke: #2e8b57; fill: #2e8b57 }
  .c3 { stroke: #b8860b; fill: #b8860b } .c4 { stroke: #7a5ea8; fill: #7a5ea8 } .c5 { stroke: #808080; fill: #808080 }
  .c6 { stroke: #00838f; fill: #00838f } .line { fill: none; stroke-width: 1.6 } .first { stroke-width: 3 }
  @media (prefers-color-scheme: dark) {
    text { fill: #ddd } .small { fill: #aaa } .paper { fill: #16181c } .grid { stroke: #3a3d44 } .frame { stroke: #777 }
    .arrow { stroke: #aaa } .tip { fill: #aaa } .empty { fill: #24272d; stroke: #555 } .held { fill: #1d3a5f; stroke: #6fa3e0 }
    .primed { fill: #56400f; stroke: #e0ac4a } .done { fill: #3c3f45; stroke: #888 }
    .c0 { stroke: #ff6090; fill: #ff6090 } .c1 { stroke: #6db3f2; fill: #6db3f2 } .c2 { stroke: #6fcf97; fill: #6fcf97 }
    .c3 { stroke: #e3b341; fill: #e3b341 } .c4 { stroke: #b39ddb; fill: #b39ddb } .c5 { stroke: #b0b0b0; fill: #b0b0b0 }
    .c6 { stroke: #4dd0e1; fill: #4dd0e1 } .line { fill: none }
  }
"""
TIP = '<marker id="tip" viewBox="0 0 8 8" refX="7" refY="4" markerWidth="7" markerHeight="7" orient="auto">' \
    '<path class="tip" d="M0,0 8,4 0,8z"/></marker>'


class Picture:
    """Shapes on a sheet of this size, with a title and a text for those who can't see them."""

    def __init__(self, width, height, title, told):
        self.size = width, height
        self.title, self.told = title, told
        self.shapes = []

    def add(self, shape):
        self.shapes.append(shape)

    def text(self, x, y, words, kind="", anchor="start"):
        self.add(f'<text x="{x:g}" y="{y:g}" class="{kind}" text-anchor="{anchor}">{escape(words)}</text>')

    def line(self, points, kind):
        self.add(f'<polyline class="{kind}" points="{" ".join(f"{x:.1f},{y:.1f}" for x, y in points)}"/>')

    def box(self, x, y, width, height, kind, round_by=2):
        self.add(f'<rect x="{x:g}" y="{y:.1f}" width="{width:.1f}" height="{height:.1f}" rx="{round_by}" class="{kind}"/>')

    def dot(self, x, y, kind):
        self.add(f'<circle cx="{x:.1f}" cy="{y:.1f}" r="2.6" class="{kind}"/>')

    def __str__(self):
        width, height = self.size
        shapes = "\n".join(self.shapes)
        return (f'<svg xmlns="http://www.w3.org/2000/svg" viewBox="0 0 {width} {height}" width="{width}" height="{height}" role="img">\n'
                f'<title>{escape(self.title)}</title>\n<desc>{escape(self.told)}</desc>\n<style>{STYLE}</style>\n<defs>{TIP}</defs>\n'
                f'<rect class="paper" width="{width}" height="{height}"/>\n{shapes}\n</svg>\n')
