"""Landings from near high gate: the start and the load are dispersed, and craft.py disperses mass, tilt and rate by the seed."""


def flight(number, chance):
    """Returns the row of a flight; `chance` is a random.Random of its own."""
    return {
        "seed": number,
        "height": round(chance.gauss(2300, 40), 1),
        "way": round(chance.gauss(7500, 150), 1),
        "forward": round(chance.gauss(150, 2), 2),
        "down": round(chance.gauss(45, 1), 2),
        "loaded_mass": round(chance.gauss(8500, 40)),
    }
