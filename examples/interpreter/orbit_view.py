"""The orbit as an instrument of agc-web: the Moon, the path and the craft, from the cells of the program, in the plane of the orbit."""

import math

from orbit import MU, PLACE, RADIUS, SPEED, burnt, cross, dot, elements, later, size

TICKS = 25  # of 10 ms, between two looks at the cells
PIECES = 120  # of the path
SHAPE = 0.62  # of the frame: its height by its width
ROOM = 1.12  # the size of the frame, in sizes of the orbit
STATE, BURN = ("RVEC", "VVEC", "TSTATE"), ("BURNN", "TIG")


def number(words, scale):
    """The number of two words."""
    parts = [word if word < 0o40000 else word - 0o77777 for word in words]
    return (parts[0] * 2.0**-14 + parts[1] * 2.0**-28) * 2.0**scale


def numbers(words, scale):
    return tuple(number(words[n:n + 2], scale) for n in range(0, len(words), 2))


class Instrument:
    """What the page shows of the program. It only looks."""

    def __init__(self):
        self.ticks = 0
        self.now = 0.0  # the clock
        self.state = None  # place, speed and time
        self.plan = None  # a planned burn: forward, right and down, and its time

    def tick(self, agc, cycle):
        """Looks at the cells, four times a second."""
        self.ticks += 1
        if self.ticks % TICKS:
            return
        place, speed, time = (agc.cells(name, count) for name, count in zip(STATE, (6, 6, 2)))
        burn, at = (agc.cells(name, count) for name, count in zip(BURN, (6, 2)))
        self.now = number(agc.cells("0024", 2), 28) / 100
        self.state = numbers(place, PLACE), numbers(speed, SPEED), number(time, 28) / 100
        self.plan = None
        if agc.cell("BURNOK") and agc.cell("MODREG") == 30 and number(at, 28) / 100 > self.now:
            self.plan = numbers([part for part in burn], 28), number(at, 28) / 100

    def view(self):
        """Returns what the page shows."""
        if self.state is None or not is_orbit(*self.state[:2]):
            return {"title": "Orbit", "rows": [["Orbit", "none yet"]]}
        place, speed = later(*self.state[:2], self.now - self.state[2])
        far, near, left, period = elements(place, speed)
        rows = [
            ["Height", f"{(size(place) - RADIUS) / 1000:.1f} km"], ["Speed", f"{size(speed):.1f} m/s"],
            ["Apolune", f"{far / 1000:.1f} km"], ["Perilune", f"{near / 1000:.1f} km"],
            ["To perilune", minutes(left)], ["Period", minutes(period)],
        ]
        paths = [(place, speed)]
        if self.plan:
            rows.append(["To the burn", minutes(self.plan[1] - self.now)])
            paths.append(self.planned())
        return {"title": "Orbit", "rows": rows, "drawing": drawing(paths)}

    def planned(self):
        """Returns the state after the planned burn."""
        burn, at = self.plan
        place, speed = later(*self.state[:2], at - self.state[2])
        return place, burnt(place, speed, [part / 10 for part in burn])

    def save(self):
        """Returns all that changes, so that the view goes back in time with the machine."""
        return self.ticks, self.now, self.state, self.plan

    def load(self, state):
        """Restores a saved state."""
        self.ticks, self.now, self.state, self.plan = state


def minutes(seconds):
    return f"{int(seconds) // 60} min {int(seconds) % 60:02d} s"


def is_orbit(place, speed):
    """Whether the state is an ellipse."""
    return size(place) > 1 and size(cross(place, speed)) > 1 and dot(speed, speed) * size(place) < 1.99 * MU


def axes(place, speed):
    """Returns two unit vectors in the plane of the orbit, which stay where they are as the craft moves."""
    pole = cross(place, speed)
    pole = [part / size(pole) for part in pole]
    fixed = (1.0, 0.0, 0.0) if abs(pole[0]) < 0.9 else (0.0, 1.0, 0.0)
    right = [one - dot(fixed, pole) * two for one, two in zip(fixed, pole)]
    right = [part / size(right) for part in right]
    return right, cross(pole, right)


def path(place, speed, plane):
    """Returns a turn of the orbit, by equal steps of the eccentric anomaly."""
    axis = 1 / (2 / size(place) - dot(speed, speed) / MU)
    pole = cross(place, speed)
    toward = [one / MU - part / size(place) for one, part in zip(cross(speed, pole), place)]
    e = size(toward)
    first = [part / e for part in toward] if e > 1e-9 else [part / size(place) for part in place]
    second = [part / size(pole) for part in cross(pole, first)]
    found = []
    for n in range(PIECES + 1):
        angle = 2 * math.pi * n / PIECES
        x, y = axis * (math.cos(angle) - e), axis * math.sqrt(max(0.0, 1 - e * e)) * math.sin(angle)
        found.append(seen([x * one + y * two for one, two in zip(first, second)], plane))
    return found


def seen(place, plane):
    return [round(dot(place, each)) for each in plane]


def drawing(paths):
    """Returns the drawing of the orbit, and of the planned one."""
    place, speed = paths[0]
    plane = axes(place, speed)
    shown = [path(*each, plane) for each in paths if is_orbit(*each)]
    points = [point for each in shown for point in each] + [[RADIUS, RADIUS], [-RADIUS, -RADIUS]]
    (left, right), (low, high) = ((min(each), max(each)) for each in zip(*points))
    width = ROOM * max(right - left, (high - low) / SHAPE)
    x, y = (left + right) / 2, (low + high) / 2
    frame = [round(part) for part in (x - width / 2, y - SHAPE * width / 2, x + width / 2, y + SHAPE * width / 2)]
    shapes = [{"shape": "circle", "style": "ground", "at": [0, 0], "radius": RADIUS}]
    shapes += [{"shape": "path", "style": style, "points": each} for style, each in zip(("behind", "ahead"), shown)]
    if len(paths) > 1:
        shapes.append({"shape": "circle", "style": "mark", "at": seen(paths[1][0], plane), "radius": round(0.008 * width)})
    shapes.append({"shape": "circle", "style": "craft", "at": seen(place, plane), "radius": round(0.012 * width)})
    label = f"The orbit: {(size(place) - RADIUS) / 1000:.0f} km above the Moon"
    return {"label": label, "frame": frame, "shapes": shapes}
