"""The elements of a picture, in pixels, as SVG."""
import math
from xml.sax.saxutils import escape


def number_text(x):
    text = f"{x:.2f}".rstrip("0").rstrip(".")
    return "0" if text == "-0" else text


def printable(words):
    return escape("".join(c if c.isprintable() else "?" for c in words))


def path(points, style, closed=False):
    places = " L".join(f"{number_text(x)} {number_text(y)}" for x, y in points)
    return f'<path d="M{places}{" Z" if closed else ""}" {style}/>'


def stroke(colour, width=1.0, dash=None):
    dashed = f' stroke-dasharray="{dash}"' if dash else ""
    return f'fill="none" stroke="{colour}" stroke-width="{number_text(width)}" stroke-linejoin="round"{dashed}'


def circle(place, radius, style):
    return f'<circle cx="{number_text(place[0])}" cy="{number_text(place[1])}" r="{number_text(radius)}" {style}/>'


def text(words, place, colour, size=12, anchor="start", bold=False):
    """With a white rim, so that it can be read over lines."""
    weight = ' font-weight="bold"' if bold else ""
    rim = 'stroke="white" stroke-width="3" stroke-linejoin="round" paint-order="stroke"'
    where = f'x="{number_text(place[0])}" y="{number_text(place[1])}" font-size="{size}" text-anchor="{anchor}"'
    return f'<text {where} fill="{colour}" {rim}{weight}>{printable(words)}</text>'


def cross(place, colour, arm=5.0):
    x, y = place
    lines = (((x - arm, y - arm), (x + arm, y + arm)), ((x - arm, y + arm), (x + arm, y - arm)))
    return [path(line, stroke(colour, 2.5)) for line in lines]


def arrowhead(start, end, colour):
    """In the middle of a line, if that is long enough."""
    length = math.dist(start, end)
    if length < 36:
        return []
    along = ((end[0] - start[0]) / length, (end[1] - start[1]) / length)
    tip = ((start[0] + end[0]) / 2 + 5 * along[0], (start[1] + end[1]) / 2 + 5 * along[1])
    sides = [(tip[0] - 9 * along[0] + s * 3.5 * along[1], tip[1] - 9 * along[1] - s * 3.5 * along[0]) for s in (1, -1)]
    return [path([tip, *sides], f'fill="{colour}"', closed=True)]


def steps_along(start, end, step):
    """Points of a line, about a step apart."""
    (x, y), (u, v) = start, end
    count = max(1, round(max(abs(u - x), abs(v - y)) / step))
    return [(x + (u - x) * i / count, y + (v - y) * i / count) for i in range(count + 1)]


def hatching(points, way, colour):
    """Short strokes along a line, to its right for a way of 1 and to its left for -1."""
    strokes, since = [], 4.0
    for start, end in zip(points, points[1:]):
        on = steps_along(start, end, 1.0)[1:]
        for x, y in on:
            since += math.dist(start, end) / len(on)
            if since >= 7:
                strokes.append(path([(x, y), (x + 5 * way, y + 5)], stroke(colour)))
                since = 0.0
    return strokes


def document(parts, width, height, title, description):
    size = f'width="{width}" height="{round(height)}"'
    box = f'viewBox="0 0 {width} {round(height)}"'
    head = f'<svg xmlns="http://www.w3.org/2000/svg" {size} {box} font-family="Helvetica, Arial, sans-serif">'
    told = f"<title>{printable(title)}</title>\n<desc>{printable(description)}</desc>"
    return "\n".join([head, told, f'<rect {size} fill="white"/>', *parts, "</svg>\n"])
