"""Draws scripts: lenses and chains of surfaces, whole and in parts, damaged recipes, bad rays, short rooms, forged
states and questions for one surface."""
import math
import struct

from operations import SEMI
from rays import Rays
from recipes import KINDS, LENSES, LIMITS, MIRROR, bytes_of, in_a_record, places, recipe, record
from scripts import MOST, WIDTH, continue_line, recipe_line, room_line, start_line, state_line

# how often each sort is drawn in a hundred
SORTS = {"lens": 20, "relay": 1, "chain": 34, "spoilt": 12, "damaged": 13, "short": 4, "forged": 8, "misfit": 8}


class Scripts(Rays):
    kinds = ["conic", "even", "biconic", "toroid"]
    sorts = SORTS

    def script(self, sort):
        return getattr(self, sort)()

    def drawn(self, count):
        return [self.script(sort) for sort in self.random.choices(list(self.sorts), self.sorts.values(), k=count)]

    def index(self):
        return self.choice([1.0, 1.0, 1.5, self.uniform(1, 2.5)])

    def parts(self, most):
        """Allowances that may end a trace of at most so many steps, and some after its end."""
        some = [self.choice([0, 1, 1, 2, 3, 7, 35]) for _ in range(self.random.randrange(7))]
        return [*some, *self.choice([[], [MOST], [MOST, 0], [most], [1, MOST, 1]])]

    def room(self, surfaces):
        return WIDTH * len(surfaces) + self.choice([0, 0, 0, 1, 12, 13, 14, 40])

    def ran(self, surfaces, ray, index=1.0):
        most = sum(LIMITS[surface[0]] for surface in surfaces)
        begun = [recipe_line(recipe(surfaces)), room_line(self.room(surfaces)), start_line(ray, index)]
        return [*begun, *map(continue_line, self.parts(most))]

    def beam(self, name):
        surfaces, z, width, steep = LENSES[name]
        angle, r = self.uniform(0, 2 * math.pi), width * math.sqrt(self.uniform(0, 1.4))
        slope = steep * self.uniform(-1, 1)
        length = self.choice([1.0, math.hypot(1.0, slope), self.uniform(0.5, 2)])
        return surfaces, [r * math.cos(angle), r * math.sin(angle) + z * slope, z, 0.0, slope / length, 1.0 / length]

    def lens(self):
        return self.ran(*self.beam(self.choice(["doublet", "phone", "mirrors", "toroid"])))

    def relay(self):
        surfaces, ray = self.beam("relay")
        begun = [recipe_line(recipe(surfaces)), room_line(6656), start_line(ray)]
        return [*begun, continue_line(self.random.randrange(512)), continue_line()]

    def met(self):
        """A surface, and a ray that meets it, often at an edge."""
        kind = self.choice(self.kinds)
        meet = self.aimed if self.one_in(3) else self.choice(self.meetings(kind))
        ray, vertex, numbers = meet(kind)
        numbers[SEMI[kind]] = abs(numbers[SEMI[kind]])
        return (kind, vertex, self.index(), in_a_record(kind, numbers), self.one_in(4)), ray

    def behind(self, first, ray):
        """Some surfaces farther on, and after a mirror farther back."""
        surfaces, z, way = [first], first[1], math.copysign(1.0, ray[5])
        for _ in range(self.choice([0, 1, 2, 4])):
            way = -way if surfaces[-1][4] else way
            z += way * self.uniform(0, 20)
            kind = self.choice(self.kinds)
            surfaces.append((kind, z, self.index(), in_a_record(kind, self.surface(kind)), self.one_in(4)))
        return surfaces

    def chain(self):
        """Sometimes behind a window at the ray's own origin, which turns nothing."""
        first, ray = self.met()
        index = self.index()
        window = [("conic", ray[2], index, [0.0, 0.0, 1e300], False)] if self.one_in(4) else []
        return self.ran([*window, *self.behind(first, ray)], ray, index)

    def spoilt(self):
        """One to three numbers of recipe or ray are hostile; more of them finite than not."""
        first, ray = self.met()
        surfaces, numbers = self.behind(first, ray), [*ray, self.index()]
        for _ in range(self.choice([1, 1, 2, 3])):
            x = self.hostile()
            x = 1e300 if self.one_in(2) and not math.isfinite(x) else x
            if self.one_in(2):
                numbers[self.random.randrange(7)] = x
                continue
            at = self.random.randrange(len(surfaces))
            kind, vertex, index, own, mirror = surfaces[at]
            changed = [vertex, index, *own]
            changed[self.random.randrange(len(changed))] = x
            surfaces[at] = (kind, changed[0], changed[1], changed[2:], mirror)
        return self.ran(surfaces, numbers[:6], numbers[6])

    def wrong_record(self, surface):
        data = record(*surface)
        kind, vertex, index, numbers, mirror = surface
        number, own = KINDS[kind] + MIRROR * mirror, [vertex, index, *numbers]
        unbounded = list(own)
        unbounded[self.random.randrange(len(own))] = self.choice([math.nan, math.inf, -math.inf])
        negative = list(own)
        negative[2 + SEMI[kind]] = -self.uniform(0, 20)
        if self.one_in(3):
            negative[1] = 0.0
        return self.choice([
            data[: self.random.randrange(1, len(data))],
            bytes_of(self.choice([0, 5, 6, 256, 261, 262, number ^ 512, 65535]), own),
            bytes_of(self.random.randrange(1, 5), own),
            bytes_of(number, own[:-1]),
            bytes_of(number, [*own, 0.0]),
            struct.pack("<H", self.choice([0, 1, 2, len(data) - 1, len(data), 65535])) + data[2:],
            bytes_of(number, unbounded),
            bytes_of(number, negative),
            bytes_of(number, [vertex, self.choice([0.0, -0.0, -1.0]), *numbers]),
        ])

    def damaged(self):
        """In one or two records. A trace that was begun before goes on after."""
        first, ray = self.met()
        surfaces = self.behind(first, ray)
        records = [record(*surface) for surface in surfaces]
        for _ in range(self.choice([1, 1, 2])):
            at = self.random.randrange(len(records))
            records[at] = self.wrong_record(surfaces[at])
        data = b"".join(records) + self.random.randbytes(self.choice([0, 0, 0, 1, 2, 3, 4, 50]))
        room = room_line(self.choice([self.room(surfaces), self.room(surfaces), 12]))
        start = start_line(ray, self.choice([1.0, 1.0, -1.0]))
        if self.one_in(2):
            return [recipe_line(data), room, start, continue_line(2)]
        good = recipe_line(recipe(surfaces))
        return [good, room, start, continue_line(1), recipe_line(data), continue_line(1), good, continue_line()]

    def short(self):
        """A room too small, or new in the midst of a trace."""
        first, ray = self.met()
        surfaces = self.behind(first, ray)
        enough = WIDTH * len(surfaces)
        rooms = [room_line(self.choice([0, 12, 13, enough - 1, enough, enough + 5])) for _ in range(2)]
        start = start_line(ray, self.choice([1.0, 1.0, 0.0]))
        begun = [recipe_line(recipe(surfaces)), rooms[0], start, continue_line(1)]
        return [*begun, rooms[1], continue_line(self.choice([0, 1, 7])), start_line(ray), continue_line()]

    def standing(self):
        """A recipe, and a state that fits it."""
        first, ray = self.met()
        kinds = self.random.choices(self.kinds, k=self.random.randrange(3))
        before = [(kind, -1.0, 1.0, in_a_record(kind, self.surface(kind)), False) for kind in kinds]
        surfaces = [*before, *self.behind(first, ray)]
        number, limit = len(before), LIMITS[first[0]]
        vertex_plane = (first[1] - ray[2]) / ray[5] if ray[5] else 0.0
        ways = [0.0, -0.0, math.nan, math.inf, vertex_plane, vertex_plane, self.uniform(-5, 60), self.hostile()]
        t = self.choice(ways)
        state = dict(
            number=number,
            place=places(surfaces)[number],
            passes=self.choice([0, self.random.randrange(limit), limit - 1]),
            t=t,
            ray=ray,
            index=self.index(),
            path=self.choice([0.0, self.uniform(-5, 50)]),
            steps=self.choice([0, number, sum(LIMITS[surface[0]] for surface in surfaces)]),
            outcome=0,
        )
        if self.one_in(5):
            state |= dict(passes=0, outcome=self.choice([2, 4, 5, 6, 7, 8, 9]))
        if self.one_in(8):
            state |= dict(number=len(surfaces), place=places(surfaces)[-1], passes=0, outcome=1)
        return surfaces, state

    def taken_up(self, surfaces, state):
        begun = [recipe_line(recipe(surfaces)), room_line(self.room(surfaces))]
        begun += self.choice([[], [start_line(state["ray"])]])
        parts = [self.choice([0, 1, 2, 7, 35]) for _ in range(self.random.randrange(4))]
        return [*begun, state_line(**state), *map(continue_line, [*parts, MOST])]

    def forged(self):
        return self.taken_up(*self.standing())

    def misfit(self):
        """A state that fits, with one or two numbers changed."""
        surfaces, state = self.standing()
        for _ in range(self.choice([1, 1, 1, 2])):
            any_count, number, place = self.random.getrandbits(64), state["number"], state["place"]
            what = self.choice([*state, "outcome", "ray"])
            state[what] = {
                "number": self.choice([0, number + 1, len(surfaces), 2**32 + number, any_count]),
                "place": self.choice([*places(surfaces), place + 1, 2**32 + place, any_count]),
                "passes": self.choice([0, 1, 24, 25, 34, 35, self.random.randrange(65536)]),
                "t": self.hostile(),
                "ray": [self.choice([x, x, self.hostile()]) for x in state["ray"]],
                "index": self.choice([0.0, -0.0, -1.0, self.hostile()]),
                "path": self.hostile(),
                "steps": self.choice([35, 60, 61, 70, 71, 2**32, any_count]),
                "outcome": self.random.randrange(14),
            }[what]
        return self.taken_up(surfaces, state)


class OddScripts(Scripts):
    """Half of the surfaces are odd aspheres. They are drawn apart, so that the other scripts stay."""

    kinds = [*Scripts.kinds, *["odd"] * len(Scripts.kinds)]
    sorts = {sort: share for sort, share in SORTS.items() if sort not in ("lens", "relay")}

    def __init__(self, seed):
        super().__init__(f"{seed} odd")


class Reaches(OddScripts):
    """Questions for one surface, between the lines of other scripts. These are drawn apart too."""

    sorts = {sort: share for sort, share in SORTS.items() if sort not in ("short", "forged", "misfit")}

    def __init__(self, seed):
        super().__init__(f"{seed} reach")

    def script(self, sort):
        lines = super().script(sort)
        ray = next(line for line in lines if line.startswith("start")).split(" ", 1)[1]
        for _ in range(self.choice([1, 2, 4])):
            numbers = [0, 1, 2, self.random.randrange(8), self.random.randrange(520), self.random.getrandbits(64)]
            at = self.random.randrange(1, len(lines) + 1)
            lines.insert(at, f"reach {self.choice(numbers)} {ray}")
        return lines
