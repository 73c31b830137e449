"""A white sheet of a fixed width, on which boxes, words and lines are put, and which is written as SVG."""
from xml.sax.saxutils import escape, quoteattr

WIDTH, MARGIN = 900, 24
INK, PALE, LINE = "#1a1a1a", "#555555", "#444444"
WHITE, GREY, BLUE, GREEN, ORANGE = "#ffffff", "#eeeeee", "#e3edf8", "#e2f2e2", "#fdeedb"


def short(number):
    """A number with at most one digit after its point."""
    return f"{number:.1f}".removesuffix(".0")


def breadth(text, size=12):
    """How wide a text may be, in the widest of the usual fonts: a whole number."""
    return -(-len(text) * size * 61 // 100)


class Sheet:
    def __init__(self, title, told):
        self.title, self.told, self.parts = title, told, []

    def put(self, tag, text=None, under=None, **attributes):
        """Puts a thing on top of all, or under the things from that number on."""
        values = {name: value if isinstance(value, str) else short(value) for name, value in attributes.items()}
        told = "".join(f" {name.replace('__', ':').replace('_', '-')}={quoteattr(value)}" for name, value in values.items())
        thing = f"<{tag}{told}/>" if text is None else f"<{tag}{told}>{escape(text)}</{tag}>"
        self.parts.insert(len(self.parts) if under is None else under, thing)

    def box(self, x, y, width, height, fill=WHITE, stroke=LINE, thick=1, **more):
        self.put("rect", x=x, y=y, width=width, height=height, fill=fill, stroke=stroke, stroke_width=thick, **more)

    def words(self, x, y, text, size=12, fill=INK, at="start", **more):
        self.put("text", text, x=x, y=y, font_size=size, fill=fill, text_anchor=at, **more)

    def code(self, x, y, text, size=13, at="start", **more):
        self.words(x, y, text, size, at=at, font_family="monospace", xml__space="preserve", **more)

    def line(self, way, arrow=False, thick=1.2, **more):
        if arrow:
            more["marker_end"] = "url(#head)"
        self.put("path", d=way, fill="none", stroke=LINE, stroke_width=thick, **more)

    def svg(self, height):
        head = [
            f'<svg xmlns="http://www.w3.org/2000/svg" width="{WIDTH}" height="{short(height)}" viewBox="0 0 {WIDTH} {short(height)}"'
            ' font-family="sans-serif" role="img" aria-labelledby="title told">',
            f'<title id="title">{escape(self.title)}</title>',
            f'<desc id="told">{escape(self.told)}</desc>',
            "<!-- Written by tools/pictures. -->",
            '<defs><marker id="head" viewBox="0 0 8 8" refX="7.5" refY="4" markerWidth="8" markerHeight="8" markerUnits="userSpaceOnUse" orient="auto">'
            f'<path d="M0,0.5 L8,4 L0,7.5 z" fill="{LINE}"/></marker></defs>',
            f'<rect width="{WIDTH}" height="{short(height)}" fill="{WHITE}"/>',
        ]
        return "\n".join(head + self.parts + ["</svg>"]) + "\n"
