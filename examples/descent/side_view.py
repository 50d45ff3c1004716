"""The side view of a flight: shapes in metres for the page of agc-web, with the site at 0, x forward and y up.

agc_web.ticks says what a shape is. The frame is one of a few sizes, the smallest in which craft and site can both be
seen; below 100 m it is closer and follows the craft. Nothing here changes the flight.
"""

import math
from typing import NamedTuple

SIZES = (20000, 10000, 5000, 2000, 1000, 500)  # m from edge to edge, above CLOSE
HIGHEST = 50000  # the same of a craft that is too high for these
CLOSE_SIZES = ((100, 250), (45, 100), (18, 50))  # a height in m, and the size below it
SHAPE = 0.55  # of a frame: its height by its width
AHEAD, PIECES = 10.0, 10  # seconds that the path is predicted, and its pieces
MOST_BEHIND = 120  # points of the path behind that are drawn
BODY = (
    (-1.6, 2.6), (-2.1, 3.6), (-1.4, 6.2), (1.4, 6.2), (2.1, 3.6), (1.6, 2.6), (2.2, 2.4), (2.2, 1.2), (-2.2, 1.2), (-2.2, 2.4),
)  # m, from the middle of the feet; so is all that follows
LEGS = (((-2.2, 2.2), (-4.3, 0.0)), ((2.2, 2.2), (4.3, 0.0)), ((-4.9, 0.0), (-3.7, 0.0)), ((4.9, 0.0), (3.7, 0.0)))
NOZZLE = ((-0.5, 1.2), (-0.9, 0.5), (0.9, 0.5), (0.5, 1.2))
JETS = (((-2.4, 4.6), (-3.0, 2.6), (-1.9, 2.6)), ((2.4, 4.6), (1.9, 2.6), (3.0, 2.6)))


class Flight(NamedTuple):
    """What is drawn of a craft: metres, metres a second, radians, and metres a second each second."""

    x: float
    height: float
    forward: float
    up: float
    tilt: float
    throttle: float
    """0 to 1."""
    jets: tuple
    """Whether the left and the right jet burn."""
    pulls: tuple
    """The acceleration forward and up, with gravity."""
    is_over: bool


def drawing(flight, behind):
    """Returns the drawing of a flight, with the places where the craft was."""
    frame, large = frame_of(flight)
    shapes = [
        *ground(frame), *paths(flight, behind), *height_scale(flight, frame), *speed_scale(flight, frame),
        *craft(flight, large),
    ]
    label = f"Side view: {flight.height:.0f} m high, {away(flight.x)}, {math.degrees(flight.tilt):+.0f} degrees of tilt"
    return {"label": label, "frame": frame, "shapes": shapes}


def away(x):
    """Returns in words how far from the site a place is."""
    return "over the site" if abs(x) < 0.5 else f"{abs(x):.0f} m {'before' if x < 0 else 'behind'} the site"


def frame_of(flight):
    """Returns the frame, left, bottom, right, top, and how many times too large the craft is drawn in it."""
    largest = SIZES[0] if flight.height <= 0.45 * SIZES[0] else HIGHEST
    size = next((size for size in reversed(SIZES) if abs(flight.x) <= 0.6 * size and flight.height <= 0.45 * size), largest)
    for below, close in CLOSE_SIZES:
        if flight.height < below:
            size = close
    aside = max(-0.3 * size, min(0.3 * size, -flight.x))
    middle = flight.x + aside
    frame = [round(middle - size / 2, 1), -0.06 * size, round(middle + size / 2, 1), (SHAPE - 0.06) * size]
    return frame, max(1.0, size / 130)


def shape(kind, style, points):
    """Returns a shape of points, to a tenth of a metre."""
    return {"shape": kind, "style": style, "points": [[round(x, 2), round(y, 2)] for x, y in points]}


def text(style, at, words, align="start"):
    """Returns a text at a place."""
    return {"shape": "text", "style": style, "at": [round(at[0], 2), round(at[1], 2)], "text": words, "align": align}


def ground(frame):
    """Returns the ground, wider than the frame, and the site on it."""
    left, bottom, right, _ = frame
    size = right - left
    west, east, deep = left - size, right + size, 9 * bottom
    flat = shape("polygon", "ground", [(west, 0), (east, 0), (east, deep), (west, deep)])
    flag = 0.045 * size
    pole = shape("line", "site", [(0, 0), (0, flag)])
    cloth = shape("polygon", "site", [(0, flag), (0.5 * flag, 0.8 * flag), (0, 0.6 * flag)])
    return [flat, pole, cloth, text("site", (0, 0.75 * bottom), "Site", "middle")]


def paths(flight, behind):
    """Returns the path behind, and ahead as it is if throttle and tilt stay."""
    here = (flight.x, flight.height)
    step = 1 + len(behind) // MOST_BEHIND
    found = [shape("path", "behind", [*behind[::step], here])] if behind else []
    ahead = [] if flight.is_over else predicted(flight)
    return found + ([shape("path", "ahead", [here, *ahead])] if ahead else [])


def predicted(flight):
    """Returns the places to which the craft comes if throttle and tilt stay, as far as the ground."""
    found = []
    for piece in range(1, PIECES + 1):
        t = AHEAD * piece / PIECES
        height = flight.height + flight.up * t + flight.pulls[1] * t * t / 2
        found.append((flight.x + flight.forward * t + flight.pulls[0] * t * t / 2, height))
        if height < 0:
            break
    return found


def round_step(span):
    """Returns the largest of 1, 2, 5, 10, 20 .. that is no larger than a span."""
    power = 10.0 ** math.floor(math.log10(span))
    return max(power * digit for digit in (1, 2, 5) if power * digit <= span)


def height_scale(flight, frame):
    """Returns a scale of heights at the left edge, and a mark at the craft's."""
    left, _, right, top = frame
    size = right - left
    at, step, tick = left + 0.02 * size, round_step(top / 3), 0.012 * size
    found = [shape("line", "scale", [(at, 0), (at, 0.95 * top)])]
    for number in range(int(0.9 * top / step) + 1):
        high = number * step
        found.append(shape("line", "scale", [(at, high), (at + tick, high)]))
        found.append(text("scale", (at + 1.5 * tick, high + 0.4 * tick), f"{high:g} m"))
    now = flight.height
    return found + [shape("polygon", "mark", [(at, now), (at - tick, now + tick), (at - tick, now - tick)])]


def speed_scale(flight, frame):
    """Returns a scale of speeds up and down at the right edge, with 0 in its middle, and a mark at the craft's."""
    left, _, right, top = frame
    size = right - left
    most = next((most for most in (5, 20, 50) if abs(flight.up) <= most), 100)
    at, tick, middle = right - 0.02 * size, 0.012 * size, 0.5 * top
    place = lambda speed: middle + 0.42 * top * max(-1.0, min(1.0, speed / most))
    found = [shape("line", "scale", [(at, place(-most)), (at, place(most))])]
    for speed in (-most, 0, most):
        found.append(shape("line", "scale", [(at - tick, place(speed)), (at, place(speed))]))
        found.append(text("scale", (at - 1.5 * tick, place(speed) - 0.8 * tick), f"{speed:+d} m/s" if speed else "0", "end"))
    now = place(flight.up)
    return found + [shape("polygon", "mark", [(at, now), (at + tick, now + tick), (at + tick, now - tick)])]


def craft(flight, large):
    """Returns the craft, its flame by the throttle, and the jets that burn, as many times too large as `large` says."""
    sine, cosine = math.sin(flight.tilt), math.cos(flight.tilt)

    def turned(points):
        both = [(x * cosine + y * sine, y * cosine - x * sine) for x, y in points]
        return [(flight.x + large * x, flight.height + large * y) for x, y in both]

    found = [shape("polygon", "craft", turned(BODY)), shape("polygon", "craft", turned(NOZZLE))]
    found += [shape("line", "craft", turned(leg)) for leg in LEGS]
    if flight.throttle > 0.005:
        found.append(shape("polygon", "flame", turned([(-0.8, 0.5), (0.8, 0.5), (0, 0.5 - 9 * flight.throttle)])))
    found += [shape("polygon", "jet", turned(jet)) for jet, burns in zip(JETS, flight.jets) if burns]
    return found
