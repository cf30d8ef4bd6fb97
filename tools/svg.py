"""Writing pictures as SVG: shapes with two decimals at most, so that the same input gives the same bytes."""

from xml.sax.saxutils import escape, quoteattr

INK = "#22262b"
PALE = "#6a737d"
LINE = "#c9ced6"
RED = "#c62828"
BLUE = "#1f5fa8"


def number(value):
    """A number as short as it can be written."""
    text = f"{value:.1f}"
    return text[:-2] if text.endswith(".0") else text


def attributes(given):
    """The attributes of a tag; an underscore at the end of a name is left out, others are hyphens."""
    parts = []
    for name, value in given.items():
        if value is not None:
            text = number(value) if isinstance(value, (int, float)) else str(value)
            parts.append(f" {name.rstrip('_').replace('_', '-')}={quoteattr(text)}")
    return "".join(parts)


class Picture:
    """A picture of shapes in layers: what stands in a higher layer covers what stands in a lower one."""

    def __init__(self):
        self.layers = {}
        self.definitions = []

    def put(self, layer, text):
        self.layers.setdefault(layer, []).append(text)

    def tag(self, layer, name, inner=None, tip=None, **given):
        """A tag with what stands in it, or with a line that is shown where the pointer is."""
        if tip is not None:
            inner = f"<title>{escape(tip)}</title>" + (inner or "")
        self.put(layer, f"<{name}{attributes(given)}" + ("/>" if inner is None else f">{inner}</{name}>"))

    def box(self, layer, x, y, width, height, **given):
        self.tag(layer, "rect", x=x, y=y, width=width, height=height, **given)

    def path(self, layer, steps, **given):
        given.setdefault("fill", "none")
        self.tag(layer, "path", d=steps, **given)

    def text(self, layer, x, y, words, size=12, anchor="middle", fill=INK, **given):
        default = None if size == 12 else size
        self.tag(layer, "text", escape(words), x=x, y=y, font_size=default, fill=None if fill == INK else fill,
                 text_anchor=None if anchor == "middle" else anchor, **given)

    def write(self, width, height, title):
        """The whole picture, on white."""
        out = [
            f'<svg xmlns="http://www.w3.org/2000/svg" width="{number(width)}" height="{number(height)}" '
            f'viewBox="0 0 {number(width)} {number(height)}" font-family="Helvetica, Arial, sans-serif" font-size="12" '
            f'fill="{INK}" text-anchor="middle">',
            f"<title>{escape(title)}</title>",
        ]
        if self.definitions:
            out.append("<defs>" + "".join(self.definitions) + "</defs>")
        out.append(f'<rect width="{number(width)}" height="{number(height)}" fill="#fff"/>')
        for layer in sorted(self.layers):
            out += self.layers[layer]
        out.append("</svg>")
        return "\n".join(out) + "\n"


def arrow(name, colour):
    """The definition of an arrowhead, for `marker_end=f"url(#{name})"`."""
    return (
        f'<marker id="{name}" viewBox="0 0 8 8" refX="7" refY="4" markerWidth="7" markerHeight="7" orient="auto" '
        f'markerUnits="userSpaceOnUse"><path d="M0 0.6L8 4L0 7.4z" fill="{colour}"/></marker>'
    )


def width_of(words, size=12):
    """About how wide a text is."""
    return len(words) * size * 0.56
