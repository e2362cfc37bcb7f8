"""A picture as SVG: plain shapes on white, so that it reads on light and dark pages."""
from xml.sax.saxutils import escape

INK, GREY, LINE, EDGE = "#1a1a1a", "#5a5a5a", "#7d8796", "#3b4a5f"
FRAME, BOX, USED, ENTRY, ZERO, SURPLUS = "#f3f4f6", "#ffffff", "#cfe3f7", "#d8efd3", "#ffffff", "#dddddd"


class Picture:
    """An SVG of plain shapes on white, with a title and a description for those who don't see it."""

    def __init__(self, width, height, title, description):
        self.head = (f'<svg xmlns="http://www.w3.org/2000/svg" viewBox="0 0 {width} {height}" width="{width}" height="{height}" '
                     f'role="img" aria-labelledby="title desc" font-family="sans-serif">')
        self.parts = [f'<title id="title">{escape(title)}</title>', f'<desc id="desc">{escape(description)}</desc>']
        self.rect(0, 0, width, height, "#ffffff", "none")
        self.text(24, 34, title, 18, bold=True)

    def rect(self, x, y, width, height, fill, stroke=LINE, corner=0, dash=""):
        dashed = f' stroke-dasharray="{dash}"' if dash else ""
        self.parts.append(f'<rect x="{x}" y="{y}" width="{width}" height="{height}" rx="{corner}" fill="{fill}" stroke="{stroke}"{dashed}/>')

    def text(self, x, y, words, size=12, anchor="start", bold=False, mono=False, fill=INK, halo=False):
        more = ' font-weight="bold"' if bold else ""
        more += ' font-family="monospace"' if mono else ""
        more += f' stroke="{FRAME}" stroke-width="4" stroke-linejoin="round" paint-order="stroke"' if halo else ""
        self.parts.append(f'<text x="{x}" y="{y}" font-size="{size}" text-anchor="{anchor}" fill="{fill}"{more} xml:space="preserve">'
                          f'{escape(str(words))}</text>')

    def line(self, *points, stroke=LINE, dash="", width=1.2):
        dashed = f' stroke-dasharray="{dash}"' if dash else ""
        places = " ".join(f"{x},{y}" for x, y in points)
        self.parts.append(f'<polyline points="{places}" fill="none" stroke="{stroke}" stroke-width="{width}"{dashed}/>')

    def svg(self):
        return "\n".join([self.head, *self.parts, "</svg>"]) + "\n"
