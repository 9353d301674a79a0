"""The picture of a prescription and of what a trace found: two sections, one below the other."""
import math

from labels import ABOVE, Labels, around
from records import file_places, slip, surface_fault
from sags import crossing, profile, way_to
from svg import arrowhead, circle, cross, document, hatching, path, stroke, text
from table import NOT_ENDED, VIGNETTED, told

WIDTH = 1000
MARGIN = 40
MOST_HEIGHT = 430
LEAST_HEIGHT = 110
MOST_NUMBERS = 24
LEAST_SPACING = 6
# of what is drawn, in mm
SMALLEST, LARGEST = 1e-12, 1e12

INK = "#1f2937"
PALE = "#b6bfcc"
QUIET = "#64748b"
BEAM = "#0a7d33"
REFUSED = "#c81e1e"
MIRROR = "#5b3a8c"
GLASS = ((222, 235, 247), (158, 194, 226))
START = f'fill="white" stroke="{BEAM}" stroke-width="1.8"'
DASHES = "6 4"

# what a trace made of a surface
FINISHED, STOPPED, UNREACHED = range(3)

# sections by the component that runs across the axis
SECTIONS = ((1, "Section x = 0: y upwards, z to the right"), (0, "Section y = 0: x upwards, z to the right"))


class Beam:
    """What is drawn of a beam: the points that are final, from the start on, and where it was going from the last; and
    its refusal."""

    def __init__(self, prescription, listing):
        ray = prescription.ray
        is_drawable = ray is not None and all(map(math.isfinite, ray))
        self.points = [tuple(ray[:3])] if is_drawable else []
        self.first_direction = self.direction = tuple(ray[3:6]) if is_drawable else None
        self.is_traced = listing is not None
        self.hits, self.record, self.refused, self.number = 0, None, None, None
        if listing is None:
            return
        if listing.is_start_refused():
            self.number = listing.outcome
            self.refused = file_places(prescription).index(listing.place) if listing.place else None
            return
        for hit in listing.hits():
            self.points.append(hit.point)
            self.direction = hit.direction
            self.hits += 1
        self.record = listing.refused()
        if self.record is not None:
            self.refused, self.number = self.record.number, self.record.status

    def fate(self, surface):
        if not self.is_traced or surface < self.hits:
            return FINISHED
        return STOPPED if surface == self.refused else UNREACHED

    def end_of_way(self, surfaces, size):
        """Where the way that was not measured is drawn to: the refused surface as it is drawn, or its vertex plane, or
        some way on."""
        length = math.hypot(*self.direction) if self.direction else 0.0
        if not self.points or not 0 < length < math.inf:
            return None
        t = 0.1 * size / length if self.record is None else self.way_to_refused(surfaces[self.refused], size / length)
        end = tuple(a + t * b for a, b in zip(self.points[-1], self.direction))
        return end if all(map(math.isfinite, end)) else None

    def way_to_refused(self, surface, farthest):
        origin, direction = self.points[-1], self.direction
        t = way_to(surface, origin, direction, farthest)
        if t is not None:
            return t
        to_plane = (surface.vertex - origin[2]) / direction[2] if direction[2] else 0.0
        return to_plane if 0 < to_plane <= farthest else 0.15 * farthest


class Window:
    """What has to be seen, in mm: z from low to high, and of each section the heights."""

    def __init__(self, profiles, points):
        drawn = [point for section in profiles.values() for one in section for point in one]
        zs = [*(z for z, _ in drawn), *(point[2] for point in points)] or [0.0]
        self.heights = {}
        for across, section in profiles.items():
            heights = [0.0, *(height for one in section for _, height in one), *(point[across] for point in points)]
            self.heights[across] = min(heights), max(heights)
        self.tallest = max(high - low for low, high in self.heights.values())
        # a lone plane has no length of its own
        length = max(zs) - min(zs)
        room = max(0.2 * self.tallest - length, 0.0) / 2 or (0.0 if length else 0.5)
        self.low_z, self.high_z = min(zs) - room, max(zs) + room

    def length(self):
        return self.high_z - self.low_z

    def size(self):
        return math.hypot(self.length(), self.tallest)

    def scales(self):
        """Pixels a mm along the axis, and how much larger heights are drawn: not at all, unless the whole is long and
        thin."""
        scale = min((WIDTH - 2 * MARGIN - 20) / self.length(), MOST_HEIGHT / self.tallest if self.tallest else math.inf)
        height = self.tallest * scale
        return scale, rounded_up(LEAST_HEIGHT / height) if 0 < height < LEAST_HEIGHT / 2 else 1.0


class View:
    """From mm to pixels, in one section."""

    def __init__(self, across, window, top):
        self.across, self.top = across, top
        self.scale, stretch = window.scales()
        self.height_scale = self.scale * stretch
        self.left, self.low_z = left_of(window), window.low_z
        self.low, self.high = window.heights[across]

    def at(self, z, height):
        return self.left + (z - self.low_z) * self.scale, self.top + (self.high - height) * self.height_scale

    def points(self, in_section):
        return [self.at(*point) for point in in_section]

    def seen(self, points):
        """Points in space, from the side."""
        return [self.at(point[2], point[self.across]) for point in points]

    def bottom(self):
        return self.at(self.low_z, self.low)[1]


def left_of(window):
    return (WIDTH - window.length() * window.scales()[0]) / 2


def rounded_up(x):
    """To 1, 2 or 5 times a power of ten."""
    power = 10.0 ** math.floor(math.log10(x))
    return next((step * power for step in (1, 2, 5) if step * power >= x * (1 - 1e-9)), 10 * power)


def glass(index):
    """The denser, the darker."""
    depth = min(max((index - 1.4) / 0.5, 0.0), 1.0)
    return "#" + "".join(f"{round(a + (b - a) * depth):02x}" for a, b in zip(*GLASS))


class Picture:
    def __init__(self, prescription, listing, title):
        self.surfaces, self.title, self.listing = prescription.surfaces, title, listing
        self.start_index = prescription.ray[6] if prescription.ray else 1.0
        self.beam = Beam(prescription, listing)
        self.profiles = {across: [profile_of(one, across) for one in self.surfaces] for across, _ in SECTIONS}
        self.window = Window(self.profiles, self.beam.points)
        self.way_end = self.beam.end_of_way(self.surfaces, self.window.size()) if self.is_under_way() else None
        self.window = Window(self.profiles, [*self.beam.points, *self.unmeasured()])
        self.parts = []

    def unmeasured(self):
        """What else is to be seen: where the beam was going, and the vertex of a surface that has no shape and was
        refused."""
        if self.way_end:
            yield self.way_end
        if self.beam.refused is not None and math.isfinite(self.surfaces[self.beam.refused].vertex):
            yield 0.0, 0.0, self.surfaces[self.beam.refused].vertex

    def is_drawable(self):
        return any(any(section) for section in self.profiles.values()) and SMALLEST < self.window.size() < LARGEST

    def is_under_way(self):
        """Whether the beam was going somewhere from its last point, as far as is known."""
        if self.listing is None or self.beam.record is not None:
            return True
        return self.listing.outcome == NOT_ENDED

    def svg(self):
        colour = QUIET if self.beam.number is None else REFUSED
        self.parts = [
            text(self.title, (MARGIN, 30), INK, 17, bold=True),
            text(self.outcome(), (MARGIN, 50), colour, 13),
        ]
        bottom = self.draw_slips(50.0)
        for across, caption in SECTIONS:
            self.parts.append(text(caption, (MARGIN, bottom + 34), QUIET))
            bottom = self.draw_section(View(across, self.window, bottom + 46)) + 14
        self.draw_scale(bottom + 18)
        bottom = self.draw_legend(bottom + 48)
        return document(self.parts, WIDTH, bottom + 16, self.title, self.outcome())

    def slips(self):
        """Why surfaces are not drawn that a start takes."""
        return [f"surface {i} is not drawn: {why}" for i, why in enumerate(map(slip, self.surfaces)) if why]

    def draw_slips(self, y):
        for words in self.slips():
            y += 18
            self.parts.append(text(words, (MARGIN, y), REFUSED))
        return y

    def outcome(self):
        beam, listing = self.beam, self.listing
        if listing is None:
            return "not traced: the beam is shown at its start" if beam.points else "not traced"
        if listing.is_start_refused():
            where = "the ray" if beam.refused is None else f"surface {beam.refused}"
            return f"refused at the start with {told(beam.number)}, for {where}: nothing is traced"
        so_far = f"{beam.hits} of {len(self.surfaces)} surfaces hit, optical path {listing.path:.6g} mm"
        if beam.record is None:
            return f"{'not ended' if listing.outcome == NOT_ENDED else 'done'}: {so_far}"
        limits = ""
        if beam.number == VIGNETTED:
            limits = f", r {beam.record.r:.6g} mm, semi-diameter {beam.record.limit:.6g} mm"
        return f"refused at surface {beam.refused} with {told(beam.number)}{limits}; {so_far}"

    def draw_section(self, view):
        """Answers where the section ends. Its drawing begins where the labels over it leave off."""
        labels = self.labels(view)
        numbers, refusal = self.numbers(view, labels), self.refusal_label(view, labels)
        feet = [*(foot for foot, _ in numbers.values()), *([refusal] if refusal else [])]
        room = max([0.0, *(view.top - foot[1] + 14 for foot in feet)])
        view.top += room
        self.draw_glass(view)
        self.draw_axis(view)
        self.draw_surfaces(view)
        for i, ends in numbers.items():
            self.draw_number(i, *((x, y + room) for x, y in ends))
        self.draw_beam(view)
        if refusal:
            (x, y), words = refusal, told(self.beam.number)
            self.parts += cross(self.refusal_place(view), REFUSED)
            self.parts.append(text(words, (x, y + room), REFUSED, anchor="middle", bold=True))
        return view.bottom()

    def numbers(self, view, labels):
        """Where the surfaces' numbers stand, and what they lead to. Of many surfaces some have none."""
        tops = {i: view.at(*points[-1]) for i, points in enumerate(self.profiles[view.across]) if points}
        every = rounded_up(max(len(tops) / MOST_NUMBERS, 1))
        # the tallest first: there is room over them
        numbered = sorted((i for i in tops if i % every == 0), key=lambda i: tops[i][1])
        return {i: (labels.place(str(i), tops[i], ABOVE), tops[i]) for i in numbered}

    def refusal_label(self, view, labels):
        mark = self.refusal_place(view)
        words = None if mark is None else told(self.beam.number)
        return words and labels.place(words, mark, around(words))

    def labels(self, view):
        """With all that is drawn in the section taken."""
        labels = Labels(8, WIDTH - 8)
        for points in self.profiles[view.across]:
            labels.take_line(view.points(points))
        labels.take_line(view.seen([*self.beam.points, *([self.way_end] if self.way_end else [])]))
        labels.take_line([view.at(self.window.low_z, 0.0), view.at(self.window.high_z, 0.0)])
        mark = self.refusal_place(view)
        if mark:
            labels.take_box(mark, 7)
        return labels

    def draw_axis(self, view):
        (x, y), (u, v) = view.at(self.window.low_z, 0.0), view.at(self.window.high_z, 0.0)
        self.parts.append(path([(x - 12, y), (u + 12, v)], stroke(PALE, 1, "12 3 2 3")))

    def draw_glass(self, view):
        for i, index in self.bodies():
            front, back = map(view.points, self.body(i, view.across))
            style = f'fill="{glass(index)}" stroke="{PALE}" stroke-width="{0.6 * self.fineness():.2f}"'
            self.parts.append(path([*front, *reversed(back)], style, closed=True))

    def body(self, i, across):
        """The profiles of a surface and the next, as far as there is glass between them."""
        both = self.surfaces[i : i + 2]
        height = crossing(*both, across)
        return self.profiles[across][i : i + 2] if height is None else [profile(one, across, height) for one in both]

    def bodies(self):
        """The surfaces behind which there is glass up to the next, and its index."""
        index, ways = self.start_index, self.ways()
        are_drawn = [bool(points) for points in self.profiles[0]]
        for i, (surface, after) in enumerate(zip(self.surfaces, self.surfaces[1:])):
            index = index if surface.mirror else surface.index
            is_ahead = (after.vertex - surface.vertex) * ways[i + 1] > 0
            if index != 1 and math.isfinite(index) and is_ahead and are_drawn[i] and are_drawn[i + 1]:
                yield i, index

    def ways(self):
        """1 along z or -1 against it, before each surface."""
        first = self.beam.first_direction
        way, ways = (-1 if first is not None and first[2] < 0 else 1), []
        for surface in self.surfaces:
            ways.append(way)
            way = -way if surface.mirror else way
        return ways

    def fineness(self):
        """Thinner lines where surfaces stand close."""
        spacing = self.window.length() * self.window.scales()[0] / len(self.surfaces)
        return min(1.0, max(spacing / LEAST_SPACING, 0.2))

    def draw_surfaces(self, view):
        for i, (surface, points, way) in enumerate(zip(self.surfaces, self.profiles[view.across], self.ways())):
            drawn = view.points(points)
            colour = {FINISHED: MIRROR if surface.mirror else INK, STOPPED: REFUSED, UNREACHED: PALE}[self.beam.fate(i)]
            if drawn and surface.mirror:
                # behind it, as the beam comes
                self.parts += hatching(drawn, way, colour)
            if drawn:
                self.parts.append(path(drawn, stroke(colour, (2.2 if surface.mirror else 1.6) * self.fineness())))

    def draw_number(self, number, foot, top):
        colour = {FINISHED: INK, STOPPED: REFUSED, UNREACHED: QUIET}[self.beam.fate(number)]
        if math.dist(foot, top) > 10:
            self.parts.append(path([(foot[0], foot[1] + 1), top], stroke(PALE, 0.8)))
        self.parts.append(text(str(number), foot, colour, anchor="middle"))

    def draw_beam(self, view):
        points = view.seen(self.beam.points)
        if len(points) > 1:
            self.parts.append(path(points, stroke(BEAM, 1.8)))
        for start, end in zip(points, points[1:]):
            self.parts += arrowhead(start, end, BEAM)
        self.parts += [circle(point, 2.4 * self.fineness(), f'fill="{BEAM}"') for point in points[1:]]
        if self.way_end:
            end, = view.seen([self.way_end])
            self.parts += [path([points[-1], end], stroke(BEAM, 1.8, DASHES)), *arrowhead(points[-1], end, BEAM)]
        if points:
            self.parts.append(circle(points[0], 3.5, START))

    def refusal_place(self, view):
        beam = self.beam
        if beam.number is None:
            return None
        if beam.record is not None:
            return view.seen([self.way_end or beam.points[-1]])[0]
        if beam.refused is None:
            return view.seen(beam.points)[0] if beam.points else None
        vertex = self.surfaces[beam.refused].vertex
        return view.at(vertex, 0.0) if math.isfinite(vertex) else None

    def draw_scale(self, y):
        left, (scale, stretch) = left_of(self.window), self.window.scales()
        length = rounded_up(80 / scale)
        right = left + length * scale
        bar = [(left, y - 4), (left, y + 4), (left, y), (right, y), (right, y - 4), (right, y + 4)]
        self.parts.append(path(bar, stroke(INK, 1.4)))
        heights = "" if stretch == 1 else f"; heights are drawn {stretch:g} times larger"
        self.parts.append(text(f"{length:g} mm{heights}", (right + 8, y + 4), INK))

    def draw_legend(self, y):
        x = MARGIN
        for drawn, words in self.entries():
            width = 34 + 6.6 * len(words) + 22
            if x + width > WIDTH - MARGIN / 2:
                x, y = MARGIN, y + 20
            self.parts += drawn([(x, y - 4), (x + 26, y - 4)])
            self.parts.append(text(words, (x + 34, y), QUIET))
            x += width
        return y

    def entries(self):
        """What the picture has, drawn along a short line, and what it means."""
        beam = self.beam
        fates = {(one.mirror, beam.fate(i)) for i, one in enumerate(self.surfaces) if self.profiles[0][i]}
        if (False, FINISHED) in fates:
            yield lambda line: [path(line, stroke(INK, 1.6))], "surface"
        if (True, FINISHED) in fates:
            yield lambda line: [*hatching(line, -1, MIRROR), path(line, stroke(MIRROR, 2.2))], "mirror"
        if any(fate == UNREACHED for _, fate in fates):
            yield lambda line: [path(line, stroke(PALE, 1.6))], "not reached: blank record"
        if any(fate == STOPPED for _, fate in fates):
            yield lambda line: [path(line, stroke(REFUSED, 1.6))], "refused surface"
        if any(True for _ in self.bodies()):
            yield lambda line: [path(line, stroke(glass(1.6), 10))], "glass"
        if beam.hits:
            point = f'fill="{BEAM}"'
            yield lambda line: [path(line, stroke(BEAM, 1.8)), circle(middle(line), 2.4, point)], "beam, finished"
        if self.way_end:
            yield lambda line: [path(line, stroke(BEAM, 1.8, DASHES))], "beam's way, not measured"
        if beam.points:
            yield lambda line: [circle(middle(line), 3.5, START)], "start"
        if beam.number is not None:
            yield lambda line: cross(middle(line), REFUSED), "refusal"


def profile_of(surface, across):
    """None of a surface that has no shape; an index that no trace takes leaves it its shape."""
    fault = surface_fault(surface)
    return [] if fault and fault[0] != 4 or slip(surface) else profile(surface, across)


def middle(line):
    (x, y), (u, v) = line
    return (x + u) / 2, (y + v) / 2
