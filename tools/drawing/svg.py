"""A picture as SVG text: one element a line, so that a change of a picture reads as a change of its text."""
from xml.sax.saxutils import escape

# a colour by its name: on light paper, and on dark
COLOURS = {
    "paper": ("#ffffff", "#0d1117"), "ink": ("#1f2328", "#e6edf3"), "dim": ("#59636e", "#9aa4af"), "rule": ("#d1d9e0", "#3d444d"),
    "box": ("#f6f8fa", "#161b22"), "good": ("#1a7f37", "#3fb950"), "told": ("#0969da", "#58a6ff"), "bad": ("#cf222e", "#f85149"),
    "stale": ("#bf8700", "#d29922"), "stalebox": ("#fff3c4", "#4a3a10"), "unsent": ("#8250df", "#b695f8"), "unsentbox": ("#ece1ff", "#3b2a60"),
    "part": ("#e3eefb", "#16283f"), "whole": ("#a9cef5", "#24507f"), "counted": ("#b4e3bf", "#1d5230"),
}
# a class: how it is filled, how its edge is drawn, and what else it says
CLASSES = {
    "text": ("ink", "", 'font: 12px "Liberation Sans", Arial, Helvetica, sans-serif'),
    ".dim": ("dim", "", ""), ".told": ("told", "", ""), ".good": ("good", "", ""), ".bad": ("bad", "", ""),
    ".mono": ("", "", 'font: 11px "Liberation Mono", "DejaVu Sans Mono", Menlo, Consolas, monospace'),
    ".head": ("", "", "font-weight: bold; font-size: 13px"), ".title": ("", "", "font-weight: bold; font-size: 15px"),
    ".tag": ("", "", "font-size: 10px"), ".bold": ("", "", "font-weight: bold"),
    ".middle": ("", "", "text-anchor: middle"), ".end": ("", "", "text-anchor: end"),
    ".paper": ("paper", "", ""), ".box": ("box", "rule", ""),
    ".part": ("part", "told", "stroke-dasharray: 2 2"), ".whole": ("whole", "told", ""), ".counted": ("counted", "good", ""),
    ".current": ("box", "dim", ""), ".stale": ("stalebox", "stale", "stroke-width: 1.5"),
    ".unsent": ("unsentbox", "unsent", "stroke-width: 1.5"), ".asked": ("unsentbox", "unsent", "stroke-dasharray: 3 2"),
    ".rule": ("", "rule", ""), ".life": ("", "dim", ""), ".busy": ("", "told", "stroke-width: 4"),
    ".arrow": ("", "ink", ""), ".moves": ("", "dim", "stroke-dasharray: 4 3"), ".tip": ("ink", "", ""),
    ".cross": ("", "bad", "stroke-width: 2"), ".answer": ("good", "", ""), ".refusal": ("bad", "", ""), ".mark": ("stale", "", ""), ".dot": ("ink", "", ""),
}


def rules(scheme, more):
    for name, (fill, edge, rest) in CLASSES.items():
        says = [f"fill: {COLOURS[fill][scheme]}"] if fill else []
        says += [f"stroke: {COLOURS[edge][scheme]}"] if edge else []
        says += [rest] if more and rest else []
        if says:
            yield f"  {name} {{ {'; '.join(says)} }}"


def style():
    dark = "\n".join("  " + rule for rule in rules(1, False))
    return "\n".join(rules(0, True)) + "\n  @media (prefers-color-scheme: dark) {\n" + dark + "\n  }\n"


class Picture:
    """Elements in the order in which they are drawn, and how large they come out."""

    def __init__(self, title, about):
        self.title, self.about = title, about
        self.elements = []
        self.width = self.height = 0

    def reach(self, x, y):
        self.width, self.height = max(self.width, x), max(self.height, y)

    def box(self, x, y, width, height, kind, round=2):
        self.reach(x + width, y + height)
        self.elements.append(f'<rect class="{kind}" x="{x:g}" y="{y:g}" width="{width:g}" height="{height:g}" rx="{round}"/>')

    def line(self, x, y, to_x, to_y, kind):
        self.reach(max(x, to_x), max(y, to_y))
        self.elements.append(f'<line class="{kind}" x1="{x:g}" y1="{y:g}" x2="{to_x:g}" y2="{to_y:g}"/>')

    def text(self, x, y, words, kind=""):
        self.reach(x, y + 4)
        kind = f' class="{kind}"' if kind else ""
        self.elements.append(f'<text{kind} x="{x:g}" y="{y:g}">{escape(words)}</text>')

    def spans(self, x, y, parts):
        """Words side by side, each with its class."""
        self.reach(x, y + 4)
        inside = "".join(f'<tspan class="{kind}">{escape(words)}</tspan>' if kind else escape(words) for words, kind in parts)
        self.elements.append(f'<text x="{x:g}" y="{y:g}" xml:space="preserve">{inside}</text>')

    def arrow(self, x, y, to_x, to_y, kind="arrow"):
        """A line with a tip; it runs along a row or down a column."""
        self.line(x, y, to_x, to_y, kind)
        if y == to_y:
            back = 6 if x > to_x else -6
            tip = f"{to_x:g},{to_y:g} {to_x + back:g},{to_y - 3.5:g} {to_x + back:g},{to_y + 3.5:g}"
        else:
            back = 6 if y > to_y else -6
            tip = f"{to_x:g},{to_y:g} {to_x - 3.5:g},{to_y + back:g} {to_x + 3.5:g},{to_y + back:g}"
        self.elements.append(f'<polygon class="tip" points="{tip}"/>')

    def dot(self, x, y, kind, size=4):
        self.elements.append(f'<circle class="{kind}" cx="{x:g}" cy="{y:g}" r="{size}"/>')

    def diamond(self, x, y, kind, size=6):
        self.elements.append(f'<polygon class="{kind}" points="{x:g},{y - size:g} {x + size:g},{y:g} {x:g},{y + size:g} {x - size:g},{y:g}"/>')

    def cross(self, x, y, size=5):
        self.line(x - size, y - size, x + size, y + size, "cross")
        self.line(x - size, y + size, x + size, y - size, "cross")

    def svg(self, margin=16):
        width, height = self.width + margin, self.height + margin
        front = [
            f'<svg xmlns="http://www.w3.org/2000/svg" viewBox="0 0 {width:g} {height:g}" width="{width:g}" height="{height:g}" role="img">',
            f"<title>{escape(self.title)}</title>",
            f"<desc>{escape(self.about)}</desc>",
            f"<style>\n{style()}</style>",
            f'<rect class="paper" width="{width:g}" height="{height:g}"/>',
        ]
        return "\n".join(front + self.elements + ["</svg>"]) + "\n"
