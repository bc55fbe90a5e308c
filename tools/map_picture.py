"""Draws two maps side by side as SVG: for each instrument a band of the left map, one of the right map and one of the
stretches in which they differ, over one time axis. An end past the right edge is an arrow there; what is narrower than
a pixel is one wide. Places are hundredths of a pixel, whole numbers, so that the same maps give the same bytes."""

import unicodedata
from colorsys import hls_to_rgb
from datetime import date
from html import escape

from text_map import DAY, EPOCH, HOUR, MINUTE, SECOND, TOP, written_moment, written_name

WIDTH, LEFT, RIGHT = 1280, 180, 1212  # the picture; its time axis, behind which the arrows stand
BAND, GAP, PAD = 18, 3, 9  # a band's height, what is between two, what is above and below those of an instrument
BLOCK = 3 * BAND + 2 * GAP + 2 * PAD
AXIS, GROUP = 32, 12  # the height of the time axis with its labels, and the instruments after which it stands again
TEXT = 668  # a character's width in names and times, in hundredths of a pixel
LEGEND_ROWS, LEGEND_NAME = 3, 24  # the most rows of symbols, and the most characters of a name in them
BANDS = ["left", "right", "differs"]
DIFFERENCE = "d"

COLOURS = [  # of a symbol and of its border
    ("#b3cde8", "#416f9f"),
    ("#bcdcb4", "#4f8a48"),
    ("#f4dca4", "#a67c1e"),
    ("#d3c6e8", "#7459a3"),
    ("#abdad6", "#33827b"),
    ("#e2ccb3", "#87653e"),
    ("#c9d1dc", "#5b6b80"),
    ("#dce2aa", "#7d8531"),
    ("#e9c4da", "#9b5481"),
    ("#b9e2f3", "#3a87aa"),
]
STYLE = """
text { font-family: 'DejaVu Sans', Verdana, 'Helvetica Neue', Arial, sans-serif; font-size: 12px; fill: #24292f }
.title { font-size: 19px; font-weight: bold }
.said { fill: #57606a }
.number { font-size: 14px; font-weight: bold }
.band { font-size: 11px; fill: #57606a }
.name { font-family: 'DejaVu Sans Mono', Menlo, Consolas, 'Liberation Mono', monospace; font-size: 11px }
.time { font-family: 'DejaVu Sans Mono', Menlo, Consolas, 'Liberation Mono', monospace; font-size: 11px; fill: #57606a }
.beside { paint-order: stroke; stroke: #ffffff; stroke-width: 4px }
.odd { fill: #f6f8fa }
.grid { stroke: #d8dee4 }
.edge { stroke: #8c959f }
.nothing { stroke: #a3abb4; stroke-dasharray: 1 3 }
.shade { fill: #b3261e; fill-opacity: 0.09 }
"""


def drawn(left, right, stretches, names):
    """The picture of two maps' rows and of the stretches in which they differ."""
    if not left + right:
        return page(80, header("Both maps are empty: there is no interval to draw."), "")
    return Picture(left, right, stretches, [written_name(name) for name in names]).page()


def page(height, parts, style):
    size = f'width="{WIDTH}" height="{height}" viewBox="0 0 {WIDTH} {height}"'
    head = ['<?xml version="1.0" encoding="UTF-8"?>', f'<svg xmlns="http://www.w3.org/2000/svg" {size} role="img">']
    head += ["<title>Two maps side by side</title>", f"<style>{STYLE}{style}</style>"]
    return "\n".join([*head, f'<rect width="{WIDTH}" height="{height}" fill="#ffffff"/>', *parts, "</svg>"]) + "\n"


def header(said):
    return [text(20, 34, "title", "Two maps side by side"), text(20, 57, "said", said)]


# Shapes.


def text(x, y, kind, said, anchor=None):
    anchored = f' text-anchor="{anchor}"' if anchor else ""
    return f'<text x="{x}" y="{y}" class="{kind}"{anchored}>{escape(said)}</text>'


def line(x1, y1, x2, y2, kind):
    return f'<line x1="{x1}" y1="{y1}" x2="{x2}" y2="{y2}" class="{kind}"/>'


def box(x, y, width, height, kind):
    return f'<rect x="{x}" y="{y}" width="{width}" height="{height}" class="{kind}"/>'


def arrow(x, y, kind):
    """An arrow to the right, as high as a band, with its foot at x."""
    return f'<path d="M{x} {y + 2}l8 {BAND // 2 - 2}l-8 {BAND // 2 - 2}z" class="{kind}"/>'


def pixels(hundredths):
    return f"{hundredths // 100}.{hundredths % 100:02}".rstrip("0").rstrip(".")


def titled(said, *shapes):
    return f"<g><title>{escape(said)}</title>{''.join(shapes)}</g>"


def cells(said):
    """How many characters wide a text is."""
    wide = {"W": 2, "F": 2}
    return sum(0 if unicodedata.combining(char) else wide.get(unicodedata.east_asian_width(char), 1) for char in said)


def cut_to(room, said):
    """A text that is cut where it is more than so many characters wide; nothing where under two of them would stand."""
    if cells(said) <= room:
        return said
    shown = ""
    while cells(shown + said[len(shown)]) < room:
        shown += said[len(shown)]
    return shown + "\u2026" if cells(shown) > 1 else ""


def fitted(room, names):
    """Names parted by a stroke, each cut where they don't fit together."""
    said = " / ".join(names)
    if cells(said) <= room or len(names) == 1:
        return cut_to(room, said)
    half = (room - 3) // 2
    shown = [cut_to(max(half, room - 3 - cells(other)), own) for own, other in (names, names[::-1])]
    return " / ".join(shown) if all(shown) else ""


def counted(number, one, many):
    return f"{number:,} {one if number == 1 else many}"


def colours(place):
    """Fill and border of the symbol at this place: the chosen ones, then hues that are spread and keep off red."""
    if place < len(COLOURS):
        return COLOURS[place]
    hue = (40 + place * 137 % 290) / 360
    shades = hls_to_rgb(hue, 0.8, 0.5), hls_to_rgb(hue, 0.4, 0.4)
    return tuple("#" + "".join(f"{round(255 * part):02x}" for part in shade) for shade in shades)


# Ticks. A sort is the least time between two ticks, the ticks from one moment to another, and how one is written.


def every(step, offset=0):
    def ticks(first, last):
        return range(first + (offset - first) % step, last + 1, step)

    return step, ticks, lambda moment: shortened(moment, step)


def every_months(count):
    def ticks(first, last):
        begin = (EPOCH.year * 12 + first // (31 * DAY)) // count * count
        for month in range(begin, 2_555 * 12, count):
            moment = (date(month // 12, month % 12 + 1, 1) - EPOCH).days * DAY
            if first <= moment <= last:
                yield moment

    return count * 28 * DAY, ticks, lambda moment: shortened(moment, DAY)


def shortened(moment, step):
    """A time as ISO 8601, as fine as a step."""
    day, _, time = written_moment(moment).rstrip("Z").partition("T")
    if step % DAY == 0:
        return day
    if step % MINUTE == 0:
        return f"{day}T{time[:5]}Z"
    digits = next(digits for digits in (0, 3, 6, 9) if step % 10 ** (9 - digits) == 0)
    return f"{day}T{time[:8]}" + (f".{time[9:].ljust(9, '0')[:digits]}" if digits else "") + "Z"


A_MONDAY = 4 * DAY
SORTS = [
    *(every(n * 10**power) for power in range(9) for n in (1, 2, 5)),
    *(every(n * SECOND) for n in (1, 2, 5, 10, 15, 30)),
    *(every(n * MINUTE) for n in (1, 2, 5, 10, 15, 30)),
    *(every(n * HOUR) for n in (1, 2, 3, 6, 12)),
    *(every(n * DAY) for n in (1, 2)),
    *(every(n * 7 * DAY, A_MONDAY) for n in (1, 2)),
    *(every_months(n) for n in (1, 2, 3, 6)),
    *(every_months(12 * n) for n in (1, 2, 5, 10, 20, 50, 100)),
]


def ticks_of(first, last):
    """The ticks of a time axis, as many as have labels that stand apart: (moment, label) each."""
    for least, ticks, label in SORTS:
        if least * (RIGHT - LEFT) * 100 >= (last - first) * TEXT * (len(label(first)) + 3):
            return [(moment, label(moment)) for moment in ticks(first, last)]
    return []


class Picture:
    """The picture of maps that are not both empty."""

    def __init__(self, left, right, stretches, names):
        rows = left + right
        self.first = min(row[1] for row in rows)
        self.last = max(moment for row in rows for moment in row[1:3] if moment < TOP)
        if self.last == self.first:
            self.last = TOP
        self.names = names
        self.bands = {instrument: ([], [], []) for instrument in sorted({row[0] for row in rows})}
        for which, own in enumerate((left, right, stretches)):
            for instrument, *row in own:
                self.bands[instrument][which].append(row)
        self.differing = len(stretches), len({stretch[0] for stretch in stretches})
        shown = [row[2] for bands in self.bands.values() for band in bands[:2] for row in band]
        self.places = {symbol: place for place, symbol in enumerate(dict.fromkeys(shown))}
        self.past = any(row[2] > self.last for row in rows)

    def page(self):
        legend, top = self.legend(84)
        ys = [top + BLOCK * n + AXIS * (n // GROUP) for n in range(len(self.bands))]
        bottom = ys[-1] + BLOCK
        grounds = [box(12, y, WIDTH - 24, BLOCK, "odd") for y in ys[::2]]
        rows = [shape for instrument, y in zip(self.bands, ys) for shape in self.block(instrument, y)]
        parts = [*header(self.summary()), *legend, *grounds, *self.axis(ys[::GROUP], bottom), *rows]
        return page(bottom + AXIS + 8, parts, self.style())

    def style(self):
        kinds = [(f"s{place}", *colours(place)) for place in self.places.values()]
        kinds += [(DIFFERENCE, "#f6c5c0", "#b3261e")]
        return "".join(f".{kind} {{ fill: {a}; stroke: {b} }} .{kind}n {{ fill: {b} }}\n" for kind, a, b in kinds)

    def summary(self):
        stretches, instruments = self.differing
        span = f"{written_moment(self.first)} to {written_moment(self.last)}"
        said = f"{counted(len(self.bands), 'instrument', 'instruments')} from {span}. "
        if stretches == 0:
            return said + "The maps agree."
        where = counted(instruments, "instrument", "instruments")
        return said + f"The maps differ in {counted(stretches, 'stretch', 'stretches')} of {where}."

    def legend(self, y):
        """What the shapes mean, and the symbols' colours; and where the instruments begin."""
        shapes = [box(20.5, y - 10.5, 18, 13, DIFFERENCE), text(45, y, "said", "the maps differ: left / right")]
        shapes += [line(260, y - 4, 278, y - 4, "nothing"), text(285, y, "said", "no symbol (-)")]
        if self.past:
            shapes += [arrow(470, y - 13, "said"), text(485, y, "said", "goes on past the edge")]
        x, row = 20, 0
        y += 24
        for count, (symbol, place) in enumerate(self.places.items()):
            said = cut_to(LEGEND_NAME, self.names[symbol])
            wide = 45 + TEXT * cells(said) // 100
            last_row = row == LEGEND_ROWS - 1
            if x + wide > WIDTH - (160 if last_row else 20):
                if last_row:
                    shapes.append(text(x, y, "said", f"and {len(self.places) - count:,} symbols more"))
                    break
                x, y, row = 20, y + 21, row + 1
            sample = box(x + 0.5, y - 10.5, 18, 13, f"s{place}"), text(x + 25, y, "name", said)
            shapes.append(titled(self.names[symbol], *sample))
            x += wide
        return shapes, y + 14 + AXIS

    def axis(self, tops, bottom):
        """The time axis above each group of instruments and below the last, with a line down from each tick."""
        shapes = [text(20, top - 10, "said", "instrument") for top in tops]
        shapes += [line(LEFT, y, RIGHT, y, "edge") for y in (*tops, bottom)]
        free = (LEFT - 84) * 100
        for moment, label in ticks_of(self.first, self.last):
            x, half = self.x(moment), TEXT * len(label) // 2
            shapes.append(line(pixels(x), tops[0] - 5, pixels(x), bottom + 5, "grid"))
            middle = min(max(x, (LEFT - 84) * 100 + half), (WIDTH - 8) * 100 - half)
            if middle - half >= free:
                free = middle + half + 800
                ys = [*(top - 10 for top in tops), bottom + 20]
                shapes += [text(pixels(middle), y, "time beside", label, "middle") for y in ys]
        return shapes

    def block(self, instrument, y):
        """One instrument: its number and its three bands."""
        ys = [y + PAD + n * (BAND + GAP) for n in range(3)]
        yield text(20, ys[1] + 14, "number", str(instrument))
        for band, at in zip(BANDS, ys):
            yield text(LEFT - 12, at + 13, "band", band, "end")
            yield line(LEFT, at + BAND // 2, RIGHT, at + BAND // 2, "nothing")
        left, right, stretches = self.bands[instrument]
        for start, end, *_ in stretches:
            x, wide = self.span(start, end)
            yield box(pixels(x), ys[0], pixels(wide), ys[2] - ys[0], "shade")
        for band, at, rows in zip(BANDS, ys, (left, right)):
            for start, end, symbol in rows:
                yield self.bar(start, end, at, f"s{self.places[symbol]}", [self.names[symbol]], f"{instrument} {band}")
        for (start, end, *sides), then in zip(stretches, [*(row[0] for row in stretches[1:]), self.last]):
            names = ["-" if side is None else self.names[side] for side in sides]
            yield self.bar(start, end, ys[2], DIFFERENCE, names, f"{instrument} differs", then)

    def bar(self, start, end, y, kind, names, where, then=None):
        """An interval with its names; beside it where it is narrow and nothing stands there up to a moment."""
        x, wide = self.span(start, end)
        shapes = [box(pixels(x), y, pixels(wide), BAND, kind + "n")]
        if wide > 300:
            shapes = [box(pixels(x + 50), y + 0.5, pixels(wide - 100), BAND - 1, kind)]
        said, inside = " / ".join(names), (wide - 800) // TEXT
        if then is not None and inside < cells(said) <= (self.x(then) - x - wide - 1_000) // TEXT:
            shapes.append(text(pixels(x + wide + 500), y + 13, "name beside", said))
        elif fitted(inside, names):
            shapes.append(text(pixels(x + 500), y + 13, "name", fitted(inside, names)))
        if end > self.last:
            shapes.append(arrow(pixels(x + wide + 100), y, kind + "n"))
        return titled(f"{where}: {said}, {written_moment(start)} to {written_moment(end)}", *shapes)

    def span(self, start, end):
        """Where an interval begins and how wide it is drawn."""
        x = self.x(start)
        return x, max(self.x(min(end, self.last)) - x, 100)

    def x(self, moment):
        return LEFT * 100 + (moment - self.first) * (RIGHT - LEFT) * 100 // (self.last - self.first)
