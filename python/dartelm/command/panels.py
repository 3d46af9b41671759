"""Panels of a page as inline SVG: one line over the span, in black and white, in a wide form and in one for a narrow screen."""
import html
import math

MANY = 40
RIGHT, TOP, BOTTOM = 14, 14, 52


class Form:
    """The size of a panel, the room for its labels, and how many of its feet have words."""

    def __init__(self, name, width, height, left, feet):
        self.name = name
        self.width = width
        self.height = height
        self.left = left
        self.feet = feet


WIDE = Form("wide", 720, 220, 112, 1)
NARROW = Form("narrow", 340, 240, 100, 2)


def ticks(low, high):
    """Round figures from low to high, four to nine of them."""
    if high == low:
        return [low]
    step = 10 ** math.floor(math.log10((high - low) / 4))
    step *= next(factor for factor in (1, 2, 5, 10) if (high - low) / (step * factor) <= 8)
    return [step * n for n in range(math.ceil(low / step - 1e-9), math.floor(high / step + 1e-9) + 1)]


class Panel:
    """Places on the span, 0 to 1, across; figures up. What is drawn later stands above what was drawn before."""

    def __init__(self, about, figures, label, form=WIDE):
        self.about = about
        self.form = form
        low, high = min(0.0, *figures), max(0.0, *figures)
        room = (high - low) * 0.08 or 1.0
        self.low, self.high = low - room, high + room
        self.label = label
        self.parts = []

    def x(self, place):
        return self.form.left + (self.form.width - self.form.left - RIGHT) * place

    def y(self, figure):
        return TOP + (self.form.height - TOP - BOTTOM) * (self.high - figure) / (self.high - self.low)

    def text(self, x, y, words, anchor="middle"):
        self.parts.append(f'<text x="{x:.1f}" y="{y:.1f}" text-anchor="{anchor}">{html.escape(words)}</text>')

    def axes(self, feet):
        """The frame, round figures on the left, and below the span in per cent with a figure under each."""
        left, right, floor = self.form.left, self.form.width - RIGHT, self.form.height - BOTTOM
        for figure in ticks(self.low, self.high):
            self.straight("zero" if figure == 0 else "grid", left, right, self.y(figure), self.y(figure))
            self.text(left - 8, self.y(figure) + 4, self.label(figure), "end")
        for place, foot in feet[:: self.form.feet]:
            x = self.x(place)
            self.straight("grid", x, x, TOP, floor)
            self.text(x, floor + 18, f"{place * 100:g} %", "end" if place == 1 else "middle")
            self.text(x, floor + 36, foot, "end" if place == 1 else "middle")
        self.box("frame", TOP, floor)

    def straight(self, kind, x1, x2, y1, y2):
        self.parts.append(f'<line class="{kind}" x1="{x1:.1f}" x2="{x2:.1f}" y1="{y1:.1f}" y2="{y2:.1f}"/>')

    def box(self, kind, top, bottom):
        size = f'width="{self.form.width - self.form.left - RIGHT}" height="{bottom - top:.1f}"'
        self.parts.append(f'<rect class="{kind}" x="{self.form.left}" y="{top:.1f}" {size}/>')

    def band(self, distance):
        self.box("band", self.y(distance), self.y(-distance))

    def line(self, places):
        points = " ".join(f"{self.x(x):.1f},{self.y(y):.1f}" for x, y in places)
        self.parts.append(f'<polyline class="line" points="{points}"/>')

    def dots(self, places):
        size = 3.5 if len(places) <= MANY else 1.5
        for x, y in places:
            self.parts.append(f'<circle class="dot" cx="{self.x(x):.1f}" cy="{self.y(y):.1f}" r="{size}"/>')

    def svg(self):
        about = html.escape(self.about, quote=True)
        return (
            f'<svg class="{self.form.name}" viewBox="0 0 {self.form.width} {self.form.height}" preserveAspectRatio="xMinYMid meet" '
            f'role="img" aria-label="{about}"><title>{about}</title>{"".join(self.parts)}</svg>'
        )
