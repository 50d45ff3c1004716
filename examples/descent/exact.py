"""Arithmetic that Python and JavaScript define alike, to the last bit.

Both languages round sums, differences, products, quotients and floors of 64-bit floating-point numbers in one way. Their
sines, cosines and random generators differ. So the craft uses the ones below, which need those five operations alone: a
second craft in JavaScript then gives the same script, byte for byte.
"""

import math

PI = 3.141592653589793
QUARTER = PI / 2
MODULUS = 2147483647
SEEDS = MODULUS - 1
"""Seeds are 0 to SEEDS - 1."""


def nearest(value):
    """Returns the nearest whole number; halves go up."""
    return math.floor(value + 0.5)


def degrees(radians):
    """Returns an angle in degrees."""
    return radians * (180 / PI)


def series_of(square):
    """Returns the power series of an angle's sine divided by the angle, and of its cosine, from the square of the angle. They
    are written out, which Python runs faster than a loop: the divisors are 2 * 3, 4 * 5 .. 14 * 15, and 1 * 2 .. 13 * 14."""
    sine = 1.0 - square / 110.0 * (1.0 - square / 156.0 * (1.0 - square / 210.0))
    sine = 1.0 - square / 6.0 * (1.0 - square / 20.0 * (1.0 - square / 42.0 * (1.0 - square / 72.0 * sine)))
    cosine = 1.0 - square / 90.0 * (1.0 - square / 132.0 * (1.0 - square / 182.0))
    cosine = 1.0 - square / 2.0 * (1.0 - square / 12.0 * (1.0 - square / 30.0 * (1.0 - square / 56.0 * cosine)))
    return sine, cosine


def sine_and_cosine(radians):
    """Returns both by their power series, after whole quarters of a turn are taken off."""
    quarters = math.floor(radians / QUARTER + 0.5)
    rest = radians - quarters * QUARTER
    sine, cosine = series_of(rest * rest)
    sine *= rest
    if quarters == 0:
        return sine, cosine
    turned = quarters - 4 * math.floor(quarters / 4)
    if turned == 0:
        return sine, cosine
    return ((cosine, -sine), (-sine, -cosine), (-cosine, sine))[turned - 1]


class Noise:
    """The generator of Park and Miller: each state is 16807 times the one before, modulo 2 to the 31 less one. No product
    has more than 46 bits."""

    def __init__(self, seed):
        self.state = seed + 1
        for _ in range(20):
            self.draw()

    def draw(self):
        """Returns the next number between 0 and 1."""
        product = 16807 * self.state
        self.state = product - MODULUS * math.floor(product / MODULUS)
        return self.state / MODULUS

    def between(self, low, high):
        """Returns a number between two others."""
        return low + (high - low) * self.draw()

    def normal(self, deviation):
        """Returns a number of nearly normal distribution around zero: twelve draws, less six."""
        total = 0.0
        for _ in range(12):
            total += self.draw()
        return (total - 6) * deviation
