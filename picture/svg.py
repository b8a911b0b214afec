"""Text of SVG: elements, and a sheet of layers."""

from dataclasses import dataclass, field
from html import escape

FONT = "'DejaVu Sans Mono', Menlo, Consolas, monospace"
CHARACTER = 0.61  # the width of a character, in sizes of its font

# The colours are those of Okabe and Ito, darker where words are written in them: they differ for the colour-blind too.
STYLE = f"""
text {{ font-family: {FONT}; font-size: 12px; fill: #1b1b1b; }}
.title {{ font-size: 15px; font-weight: bold; }}
.small {{ font-size: 11px; fill: #4a4a4a; }}
.bold {{ font-weight: bold; }}
.sheet {{ fill: #ffffff; }}
.lane {{ fill: #f4f6f8; }}
.over {{ fill: #dcdcdc; }}
.back {{ fill: #ffffff; fill-opacity: 0.88; }}
.grid {{ stroke: #e2e5e9; }}
.rule {{ stroke: #b8bdc4; }}
.stem {{ stroke: #9aa0a8; }}
.held {{ fill: #d3e8f7; }}
.held-edge {{ stroke: #0072b2; stroke-width: 1.5; fill: none; }}
.held-cap {{ stroke: #0072b2; stroke-width: 3; }}
.buffered-edge {{ stroke: #0072b2; stroke-width: 1.5; stroke-dasharray: 4 3; fill: none; }}
.wait {{ fill: url(#hatch); }}
.wait-edge {{ stroke: #9a6300; stroke-width: 1.5; fill: none; }}
.granted {{ fill: #c9ecdf; stroke: #00664a; stroke-width: 1.2; }}
.buffered {{ fill: #e3f3fc; stroke: #0072b2; stroke-width: 1.2; stroke-dasharray: 3 2; }}
.refused {{ fill: #b84a00; stroke: #7a3100; stroke-width: 1.2; }}
.again {{ fill: #fff3ea; stroke: #b84a00; stroke-width: 1.6; }}
.free {{ fill: #ececec; stroke: #5f5f5f; stroke-width: 1.2; }}
.who {{ fill: #ffffff; stroke: #5b6b7d; stroke-width: 1.2; }}
.join {{ fill: #f7ee8a; stroke: #6b6400; stroke-width: 1.2; }}
.refused-text {{ fill: #ffffff; font-weight: bold; }}
.refused-words {{ fill: #8f3900; }}
.refused-line {{ stroke: #b84a00; stroke-width: 1.8; stroke-dasharray: 6 3; }}
.refused-dot {{ fill: #b84a00; stroke: #ffffff; }}
.who-line {{ stroke: #5b6b7d; stroke-width: 1.2; }}
.named-line {{ stroke: #5b6b7d; stroke-width: 1.4; stroke-dasharray: 1.5 3; }}
.who-dot {{ fill: #5b6b7d; stroke: #ffffff; }}
.join-line {{ stroke: #857d00; stroke-width: 3; }}
.join-stem {{ stroke: #857d00; stroke-width: 2; }}
.join-thread {{ stroke: #857d00; stroke-width: 1.2; stroke-dasharray: 2 2; }}
.cycle-column {{ fill: #f3eaf6; }}
.cycle-line {{ stroke: #6a2383; stroke-width: 2.2; fill: none; }}
.cycle-head {{ fill: #6a2383; }}
.cycle-box {{ fill: #ffffff; stroke: #6a2383; stroke-width: 1.8; }}
.cycle-words {{ fill: #6a2383; font-weight: bold; }}
.end {{ stroke: #1b1b1b; stroke-width: 3; }}
"""
HATCH = (
    '<defs><pattern id="hatch" width="7" height="7" patternUnits="userSpaceOnUse">'
    '<rect width="7" height="7" fill="#fdf0d5"/><path d="M-1,1 l2,-2 M0,7 l7,-7 M6,8 l2,-2" stroke="#e69f00" stroke-width="1.2"/>'
    "</pattern></defs>"
)
LAYERS = ("ground", "lines", "bars", "words", "marks", "cycles", "ends", "head")


def number(value):
    """A coordinate, to a tenth."""
    return f"{value:.1f}".removesuffix(".0")


def element(name, *children, **attributes):
    """An element. An attribute's underscores are hyphens, and `look` is its class."""
    told = {"class" if key == "look" else key.replace("_", "-"): value for key, value in attributes.items()}
    words = "".join(f' {key}="{number(value) if isinstance(value, (int, float)) else escape(value)}"' for key, value in told.items())
    return f"<{name}{words}>{''.join(children)}</{name}>" if children else f"<{name}{words}/>"


def rect(x, y, width, height, look, **more):
    return element("rect", x=x, y=y, width=width, height=height, look=look, **more)


def line(x1, y1, x2, y2, look):
    return element("line", x1=x1, y1=y1, x2=x2, y2=y2, look=look)


def circle(x, y, radius, look):
    return element("circle", cx=x, cy=y, r=radius, look=look)


def words(x, y, text, look=None, anchor=None):
    """A line of text, whose base stands at y."""
    more = {} if anchor is None else {"text_anchor": anchor}
    if look is not None:
        more["look"] = look
    return element("text", escape(text, quote=False), x=x, y=y, **more)


def hinted(hint, *parts, **more):
    """Parts over which a browser tells the hint."""
    return element("g", element("title", escape(hint, quote=False)), *parts, **more)


def width_of(text, size=12):
    """How wide a text is, about."""
    return len(text) * size * CHARACTER


@dataclass
class Sheet:
    """Elements in layers: a later layer is drawn over an earlier one."""

    layers: dict[str, list[str]] = field(default_factory=lambda: {name: [] for name in LAYERS})

    def put(self, layer, *elements):
        self.layers[layer].extend(elements)

    def render(self, width, height, title):
        size = f'width="{number(width)}" height="{number(height)}" viewBox="0 0 {number(width)} {number(height)}"'
        head = f'<svg xmlns="http://www.w3.org/2000/svg" role="img" xml:space="preserve" {size}>'
        parts = [head, f"<title>{escape(title, quote=False)}</title>", f"<style>{STYLE}</style>", HATCH, rect(0, 0, width, height, "sheet")]
        for name in LAYERS:
            if self.layers[name]:
                parts += [f'<g id="{name}">', *self.layers[name], "</g>"]
        return "\n".join([*parts, "</svg>", ""])
