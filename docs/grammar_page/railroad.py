"""Draws forms as railroad diagrams, in SVG."""
from dataclasses import dataclass
from html import escape

from grammar_page.ebnf import without_nodes
from grammar_page.forms import Either, Many, Maybe, Rule, Token

LETTER = 7.8
HEIGHT = 26
GAP = 14
BEND = 8
ROW = 1080
STYLE = '''<style>
rect.all { fill: #ffffff } path { fill: none; stroke: #57606a; stroke-width: 1.5 }
rect.token { fill: #ddf4ff; stroke: #0969da } rect.rule { fill: #fff8c5; stroke: #9a6700 }
text { font: 13px monospace; fill: #1f2328; text-anchor: middle }
</style>'''


@dataclass
class Box:
    """A part of a diagram: its width, how far it reaches above and below its line, and what draws it from a place on
    that line."""
    width: float
    up: float
    down: float
    draw: object


def line(x, y, *steps):
    return f'<path d="M{x:g} {y:g} {" ".join(steps)}"/>'


def bend(turn, right, down):
    """A quarter of a circle."""
    return f'a{BEND} {BEND} 0 0 {turn} {right * BEND} {down * BEND}'


def label(text, kind):
    """A token or a rule in its box."""
    width = round(len(text) * LETTER) + 2 * GAP

    def draw(x, y):
        corner = HEIGHT // 2 if kind == 'token' else 3
        size = f'width="{width}" height="{HEIGHT}" rx="{corner}"'
        return [f'<rect class="{kind}" x="{x:g}" y="{y - HEIGHT / 2:g}" {size}/>',
                f'<text x="{x + width / 2:g}" y="{y + 4:g}">{escape(text)}</text>']
    return Box(width, HEIGHT / 2, HEIGHT / 2, draw)


def row(boxes):
    """Boxes one after the other."""
    width = sum(it.width for it in boxes) + GAP * (len(boxes) - 1 if boxes else 1)

    def draw(x, y):
        drawn = [] if boxes else [line(x, y, f'h{width:g}')]
        for at, box in enumerate(boxes):
            if at:
                drawn.append(line(x - GAP, y, f'h{GAP}'))
            drawn += box.draw(x, y)
            x += box.width + GAP
        return drawn
    return Box(width, max([it.up for it in boxes], default=0), max([it.down for it in boxes], default=0), draw)


def fitted(box, width):
    """A box with its line drawn on to a width."""
    def draw(x, y):
        return [*box.draw(x, y), line(x + box.width, y, f'h{width - box.width:g}')]
    return Box(width, box.up, box.down, draw)


def choice(boxes):
    """One of some boxes, each below the one before it."""
    width = max(it.width for it in boxes)
    places, place = [], 0
    for before, box in zip([None, *boxes], boxes):
        place += max(before.down + box.up + GAP / 2, 2 * BEND) if before else 0
        places.append(place)
    side = 2 * BEND

    def draw(x, y):
        drawn = []
        for place, box in zip(places, boxes):
            drawn += fitted(box, width).draw(x + side, y + place)
            drop = f'v{place - 2 * BEND:g}'
            left = (bend(1, 1, 1), drop, bend(0, 1, 1)) if place else (f'h{side}',)
            right = (bend(0, 1, -1), f'v{2 * BEND - place:g}', bend(1, 1, -1)) if place else (f'h{side}',)
            drawn += [line(x, y, *left), line(x + side + width, y + place, *right)]
        return drawn
    return Box(width + 2 * side, boxes[0].up, places[-1] + boxes[-1].down, draw)


def optional(box):
    """A box with a way past it, above."""
    side, height = 2 * BEND, max(box.up + GAP / 2, 2 * BEND)

    def draw(x, y):
        rise, fall = f'v{2 * BEND - height:g}', f'v{height - 2 * BEND:g}'
        past = (bend(0, 1, -1), rise, bend(1, 1, -1), f'h{box.width:g}', bend(1, 1, 1), fall, bend(0, 1, 1))
        return [line(x, y, f'h{side}'), line(x + side + box.width, y, f'h{side}'), line(x, y, *past),
                *box.draw(x + side, y)]
    return Box(box.width + 2 * side, height, box.down, draw)


def loop(box, back):
    """A box with a way back to its start below it, on which is what comes between two turns."""
    width = max(box.width, back.width)
    height = max(box.down + back.up + GAP / 2, 2 * BEND)
    side = 2 * BEND

    def draw(x, y):
        start, end = x + side, x + side + width
        gap = (width - back.width) / 2
        drop, rise = f'v{height - 2 * BEND:g}', f'v{2 * BEND - height:g}'
        return [line(x, y, f'h{side}'), *fitted(box, width).draw(start, y), line(end, y, f'h{side}'),
                line(end, y, bend(1, 1, 1), drop, bend(1, -1, 1), f'h{-gap:g}'), *back.draw(start + gap, y + height),
                line(start + gap, y + height, f'h{-gap:g}', bend(1, -1, -1), rise, bend(1, 1, -1))]
    return Box(width + 2 * side, box.up, height + back.down, draw)


class Diagrams:
    """Draws the forms of a page."""

    def __init__(self, kinds, about):
        self.kinds, self.about = kinds, about

    def of(self, form):
        return row([self.part(it) for it in form])

    def part(self, part):
        if isinstance(part, Token):
            return label(' or '.join(self.text(it) for it in self.kinds.sorted(part.kinds)), 'token')
        if isinstance(part, Rule):
            words = [it.replace('`', '') for it in self.about(part)]
            return label(part.label + (f' ({", ".join(words)})' if words else ''), 'rule')
        if isinstance(part, Either):
            return choice([self.of(it) for it in part.forms])
        if isinstance(part, Maybe):
            return optional(self.of(part.form))
        if isinstance(part, Many):
            turn = loop(self.of(part.form), row([]))
            return turn if part.least else optional(turn)
        turn = loop(self.of(part.form), self.of(part.separator))
        return row([turn, optional(self.of(part.separator))]) if part.is_open else turn

    def text(self, kind):
        return self.kinds.texts.get(kind, kind)

    def rows(self, form):
        """A form as rows that are not too long."""
        rows, length = [[]], 0
        for box in map(self.part, form):
            if rows[-1] and length + box.width > ROW:
                rows.append([])
                length = 0
            rows[-1].append(box)
            length += box.width + GAP
        return [row(it) for it in rows]

    def picture(self, form, title):
        """The picture of a form."""
        rows = self.rows(without_nodes(form, self.kinds))
        width = max(it.width for it in rows) + 6 * GAP
        drawn, y = [], GAP
        for at, box in enumerate(rows):
            y += box.up
            drawn += self.rail(box, at, rows, y, width)
            y += box.down + 2 * GAP
        height = y
        return '\n'.join([
            f'<svg xmlns="http://www.w3.org/2000/svg" width="{width:g}" height="{height:g}" role="img">',
            f'<title>{escape(title)}</title>', STYLE, f'<rect class="all" width="{width:g}" height="{height:g}"/>',
            *drawn, '</svg>', ''])

    def rail(self, box, at, rows, y, width):
        """A row with the rail before it and after it, and the way to the next row."""
        x = 3 * GAP
        drawn = [line(GAP, y, f'h{2 * GAP}'), *box.draw(x, y), line(x + box.width, y, f'h{GAP}')]
        if at == 0:
            drawn.append(line(GAP, y - 6, 'v12'))
        end = x + box.width + GAP
        if at == len(rows) - 1:
            return [*drawn, line(end, y - 6, 'v12')]
        below = y + box.down + GAP
        after = below + GAP + rows[at + 1].up
        back = (f'v{below - y:g}', f'H{GAP}', f'V{after:g}')
        return [*drawn, line(end, y, *back)]
