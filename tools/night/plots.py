"""Pictures of a session, as SVG for the page: computed minus recorded range over the local time, and the two orbits as they
are at the end, seen square on vehicle 0's plane. They are drawn for the eye; nothing is judged by them."""
import math

from .report import clock, places
from .verdict import DAY, number, worst_of

MINUTE = 6_000
WIDTH, HEIGHT, LEFT, RIGHT, TOP, FOOT = 560, 250, 74, 14, 26, 44
COLUMNS = 240  # with more marks than that, a stroke from the least to the greatest of each column
EVENTS = 60  # with more than that, none is drawn
LARGEST = 1e300  # metres in a picture
STEPS_OF_TIME = [MINUTE * k for k in (1, 2, 5, 10, 15, 30, 60, 120, 180, 360, 720)]
USUAL = {"earth": 39860120000.0, "moon": 490277800.0}
RADIUS = {"earth": 6_378_166.0, "moon": 1_738_090.0}
SIDE, STEPS, DISC = 300, 60, 0.55  # the disc's share of the picture where heights are stretched


class Sheet:
    """A picture as it is drawn: a path for all strokes of a kind, so that a page with many pictures stays light."""

    def __init__(self):
        self.paths, self.rest = {"grid": "", "axis": ""}, []

    def draw(self, kind, data):
        self.paths[kind] = self.paths.get(kind, "") + data

    def stroke(self, kind, x, y, to_x, to_y):
        self.draw(kind, f"M{x:.1f} {y:.1f}L{to_x:.1f} {to_y:.1f}")

    def circle(self, kind, x, y, size):
        self.rest.append(f'<circle class="{kind}" cx="{x:.1f}" cy="{y:.1f}" r="{size:.1f}"/>')

    def label(self, x, y, words, anchor="middle", kind=""):
        kind = f' class="{kind}"' if kind else ""
        self.rest.append(f'<text{kind} x="{x:.0f}" y="{y:.0f}" text-anchor="{anchor}">{words}</text>')

    def svg(self, width, height, words):
        paths = "".join(f'<path class="{kind}" d="{data}"/>' for kind, data in self.paths.items() if data)
        return f'<svg viewBox="0 0 {width} {height}" role="img" aria-label="{words}">{paths}{"".join(self.rest)}</svg>'


def metres(x):
    return f"{x:,.0f}" if 10 <= abs(x) < 1e7 or x == 0 else f"{x:.3g}"


def multiples(step, low, high):
    """The multiples of a step from low to high."""
    return [step * k for k in range(math.ceil(low / step), math.floor(high / step) + 1)]


def step_for(size, most):
    """The least of 1, 2, 5 times a power of ten that goes into a size at most so often."""
    ten = 10.0 ** math.floor(math.log10(size / most))
    return next(k * ten for k in (1, 2, 5, 10, 20) if size / (k * ten) <= most)


# ---- marks over time

class Frame:
    """Where times and metres lie in the picture."""

    def __init__(self, marks, events, limit):
        times, offs = [mark.time() for mark in marks], [max(-LARGEST, min(mark.off, LARGEST)) for mark in marks]
        spare = 0.25 * (max(times) - min(times))
        times += [event.time() for event in events if min(times) - spare <= event.time() <= max(times) + spare]
        self.start, self.end = min(times), max(times)
        self.events = [event for event in events if self.start <= event.time() <= self.end]
        peak = max(map(abs, offs))
        self.limits = [limit, -limit] if peak / 50 <= limit <= 4 * peak else []
        low, high = min([0.0, *offs, *self.limits]), max([0.0, *offs, *self.limits])
        spare = max(0.08 * (high - low), 1e-6)
        self.low, self.high = low - spare, high + spare

    def across(self, time):
        return LEFT + 6 + (WIDTH - LEFT - RIGHT - 12) * ((time - self.start) / (self.end - self.start) if self.end > self.start else 0.5)

    def up(self, off):
        off = max(self.low, min(off, self.high))
        return TOP + (HEIGHT - TOP - FOOT) * ((self.high - off) / (self.high - self.low))

    def scale(self, sheet):
        """The metres at the side."""
        for off in multiples(step_for(self.high - self.low, 5), self.low, self.high):
            sheet.stroke("axis" if off == 0 else "grid", LEFT, self.up(off), WIDTH - RIGHT, self.up(off))
            sheet.label(LEFT - 6, self.up(off) + 5, metres(off), "end")

    def clock(self, sheet):
        """The local time below, by the hour or what else has room; a midnight has its day."""
        span = self.end - self.start
        step = next((step for step in STEPS_OF_TIME if span / step <= 6), DAY * max(1, math.ceil(span / DAY / 5)))
        times = multiples(step, self.start, self.end)
        for time in times:
            x, day = self.across(time), time % DAY == 0
            sheet.stroke("midnight" if day else "grid", x, TOP, x, HEIGHT - FOOT)
            sheet.label(min(x, WIDTH - 22), HEIGHT - FOOT + 18, f"day {time // DAY}" if day else clock(time % DAY, True))
        if not times:
            sheet.label(self.across(self.start), HEIGHT - FOOT + 18, clock(self.start % DAY), "middle" if self.end == self.start else "start")


def strokes(points):
    """Each point, or of each column the stroke from its least to its greatest."""
    if len(points) <= COLUMNS:
        return [(x, y, y) for x, y in points]
    columns = {}
    for x, y in points:
        column = round((x - LEFT) / (WIDTH - LEFT - RIGHT) * COLUMNS)
        _, low, high = columns.get(column, (x, y, y))
        columns[column] = x, min(low, y), max(high, y)
    return [columns[column] for column in sorted(columns)]


def dots(frame, marks, shape):
    drawn = strokes([(frame.across(mark.time()), frame.up(mark.off)) for mark in marks])
    return "".join(shape(x, low, high - low) for x, low, high in drawn)


def dash(x, y, size):
    """A dot where it has no size; some printers leave out a stroke of no length at all."""
    return f"M{x:.1f} {y:.1f}v{max(size, 0.1):.1f}"


def block(x, y, size):
    return f"M{x - 3:.1f} {y - 3:.1f}h6v{size + 6:.1f}h-6z"


SIGNS = {"burn": "M{x:.1f} {y:.1f}l-5 9h10z", "state": "M{x:.1f} {y:.1f}m-4 1h8v8h-8z", "refused": "M{x:.1f} {y:.1f}m-4 1l8 8m0 -8l-8 8"}


def off_plot(marks, events, limit):
    """Computed minus recorded range of the marks that got a result, with the limit where it is near and the other records below."""
    frame, sheet, worst = Frame(marks, events, limit), Sheet(), worst_of(marks)
    frame.scale(sheet)
    frame.clock(sheet)
    sheet.label(LEFT - 6, TOP - 10, "m", "end")
    for off in frame.limits:
        sheet.stroke("limit", LEFT, frame.up(off), WIDTH - RIGHT, frame.up(off))
    if frame.limits:
        sheet.label(WIDTH - RIGHT, TOP - 10, f"- - limit {limit} m", "end", "red")
    for event in frame.events if len(frame.events) <= EVENTS else ():
        sheet.draw(event.what, SIGNS[event.what].format(x=frame.across(event.time()), y=HEIGHT - FOOT + 28))
    sheet.draw("marks", dots(frame, [mark for mark in marks if abs(mark.off) <= limit], dash))
    sheet.draw("over", dots(frame, [mark for mark in marks if not abs(mark.off) <= limit], block))
    sheet.circle("worst", frame.across(worst.time()), frame.up(worst.off), 7)
    return sheet.svg(WIDTH, HEIGHT, f"computed minus recorded range over local time; worst mark {places(worst.off)} m")


# ---- orbits

def dot(a, b):
    return sum(x * y for x, y in zip(a, b))


def cross(a, b):
    return a[1] * b[2] - a[2] * b[1], a[2] * b[0] - a[0] * b[2], a[0] * b[1] - a[1] * b[0]


def scaled(k, a):
    return tuple(k * x for x in a)


def plus(a, b):
    return tuple(x + y for x, y in zip(a, b))


def unit(a):
    return scaled(1 / math.hypot(*a), a)


class Flight:
    """A vehicle as the last lines of a replay have it."""

    def __init__(self, words, mu):
        self.vehicle, self.body = words[1], words[2]
        numbers = [number(word) for word in words[-6:]]
        self.at, self.speed, self.mu = tuple(numbers[:3]), tuple(numbers[3:]), mu[self.body]

    def normal(self):
        return unit(cross(self.at, self.speed))

    def points(self):
        """The orbit as points; of an open one what is near."""
        turn = cross(self.at, self.speed)
        far, p = math.hypot(*self.at), dot(turn, turn) / self.mu
        shape = plus(scaled(1 / self.mu, cross(self.speed, turn)), scaled(-1 / far, self.at))
        e = math.hypot(*shape)
        ahead = unit(shape) if e > 1e-9 else unit(self.at)
        aside = cross(unit(turn), ahead)
        for k in range(STEPS + 1):
            x, y = closed_point(p, e, math.tau * k / STEPS) if e < 1 else open_point(p, e, far, 2 * k / STEPS - 1)
            yield plus(scaled(x, ahead), scaled(y, aside))


def closed_point(p, e, turn):
    """A point of an ellipse about its focus."""
    half = p / (1 - e * e)
    return half * (math.cos(turn) - e), half * math.sqrt(1 - e * e) * math.sin(turn)


def open_point(p, e, far, share):
    """A point of an open orbit, as far out as three times where the vehicle is."""
    angle = share * math.acos(max(-1.0, min(1.0, (p / (3 * far) - 1) / e)))
    away = p / (1 + e * math.cos(angle))
    return away * math.cos(angle), away * math.sin(angle)


class Plane:
    """The plane of a flight, as the picture has it: above the ground heights are stretched where all are low, so that two orbits a few kilometres
    apart can be told from each other."""

    def __init__(self, flight):
        self.normal, self.radius = flight.normal(), RADIUS[flight.body]
        self.right = unit(plus(flight.at, scaled(-dot(flight.at, self.normal), self.normal)))
        self.above = cross(self.normal, self.right)

    def flat(self, point):
        return dot(point, self.right), dot(point, self.above)

    def fit(self, points):
        reach, room = max([self.radius, *(math.hypot(*point) for point in points)]), SIDE / 2 - 22
        if not math.isfinite(reach):
            raise OverflowError
        true = self.radius / reach
        self.disc = room * (min(true, DISC) if reach < 2 * self.radius else true)
        self.stretch = (room - self.disc) / (reach - self.radius) if reach > self.radius else 0.0

    def times(self):
        """How much larger heights are drawn than the body."""
        return self.stretch * self.radius / self.disc

    def put(self, point, more=0):
        """Where a point comes to lie, or so much further out."""
        away = math.hypot(*point)
        drawn = (self.disc * away / self.radius if away < self.radius else self.disc + self.stretch * (away - self.radius)) + more
        return SIDE / 2 + drawn * point[0] / away, SIDE / 2 - drawn * point[1] / away


def orbit_plot(flights):
    """Vehicles about one body, in the plane of the first, and how much heights are stretched."""
    plane = Plane(flights[0])
    orbits = [[plane.flat(point) for point in flight.points()] for flight in flights]
    ends = [plane.flat(flight.at) for flight in flights]
    plane.fit([point for orbit in (*orbits, ends) for point in orbit])
    sheet, middle = Sheet(), SIDE / 2
    sheet.draw("body", "M{0:.1f} {2:.1f}a{1:.1f} {1:.1f} 0 1 0 {3:.1f} 0a{1:.1f} {1:.1f} 0 1 0 -{3:.1f} 0z".format(middle - plane.disc, plane.disc, middle, 2 * plane.disc))
    sheet.label(middle, middle + 5, flights[0].body)
    for flight, orbit, end in zip(flights, orbits, ends):
        (x, y), (a, b) = plane.put(end), plane.put(end, 14 if flight.vehicle == "0" else -14)
        sheet.draw(f"orbit v{flight.vehicle}", "M" + "L".join("{:.1f} {:.1f}".format(*plane.put(point)) for point in orbit))
        if flight.vehicle == "0":
            sheet.circle("v0", x, y, 5)
        else:
            sheet.draw("at v1", f"M{x:.1f} {y:.1f}m-6 -6h12v12h-12z")
        sheet.label(a, b + 5, flight.vehicle)
    return sheet.svg(SIDE, SIDE, f"orbits about the {flights[0].body} at the end"), plane.times()


def orbit_plots(vehicles, mu):
    """A picture a body of the vehicles that are set, with how much its heights are stretched; none of what cannot be drawn."""
    flights = [Flight(words, mu) for words in vehicles if words[2] in RADIUS]
    bodies = sorted({flight.body for flight in flights})
    drawn = []
    for body in bodies:
        try:
            drawn.append(orbit_plot([flight for flight in flights if flight.body == body]))
        except (ZeroDivisionError, OverflowError, ValueError):
            continue
    return drawn


def mu_of(words):
    """mu of the bodies by the settings' words, or the usual."""
    return dict(zip(("earth", "moon"), map(number, words))) if words else USUAL
