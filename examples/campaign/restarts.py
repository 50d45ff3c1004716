"""Landings with a restart of the program at each N-th cycle, from the start to the ground, N from 5,000 to 640,000."""

STEPS = [5_000, 10_000, 20_000, 40_000, 160_000, 640_000]


def flight(number, chance):
    """Returns the row of a flight: the steps in turn, each with another first cycle and another seed."""
    step = STEPS[number % len(STEPS)]
    first = 400_000 + chance.randrange(step)
    return {"seed": number, "restarts": f"{first}:{step}:{first + 13_000_000 // step * step}"}
