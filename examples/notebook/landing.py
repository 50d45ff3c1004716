#!/usr/bin/env python3
"""Flies a landing of examples/descent from high gate, and once more with the alarms 1202 and 1201, and draws what the program computed
beside the truth: altitude, altitude rate, tilt and fuel, and how many core sets and VAC areas were taken. Alarms are marked.

The craft records the truth in each hundredth of a second. What the program computed comes from the script that the flight leaves:
`agc.sample` runs it again, by the files of quantities in examples/descent. It needs pandas and matplotlib.
"""

import argparse
import importlib
import math
import os
import sys
import tempfile
from typing import Any, Dict, List, NamedTuple, Optional, Tuple

here = os.path.dirname(os.path.realpath(__file__))
DESCENT = os.path.join(here, "..", "descent")
sys.path += [DESCENT, os.path.join(here, "..", "..", "clients", "python")]
import craft  # noqa: E402
from agc import Console, Error, sample  # noqa: E402

NAMES, QUANTITIES, JOBS = (os.path.join(DESCENT, name) for name in ("names", "quantities", "jobs.quantities"))
ALARM = os.path.join(DESCENT, "alarm", "radar")
CONSOLE, STUDY = os.environ.get("CONSOLE"), os.environ.get("STUDY")
"""Other programs than those of this repository."""

WATCH = {50 + 0.25 * number: key for number, key in enumerate(craft.WATCHES)}
"""The keys with which the crew watches noun 68 before the alarms."""

TRUTH = ["seconds", "altitude", "altitude_rate", "forward", "place", "tilt", "mass"]
EVERY = 8533  # cycles, a tenth of a second
ROUND = 163.84  # seconds, after which TIME1 begins anew
SETTLED = 12  # seconds, after which the radar has corrected what was wrong in the load
FREE = 0o77777  # the priority of a free core set
ALARM_CELLS = ["first_alarm", "second_alarm", "last_alarm"]
ROWS = ["altitude, m", "computed less true, m", "altitude rate, m/s", "tilt, degrees", "fuel, kg", "taken"]
"""What the picture has, from top to bottom."""


class Flight(NamedTuple):
    """A flight: its name, the craft's state in each hundredth of a second, the script that repeats it, the cycles that it took, and
    how it ended."""

    name: str
    truth: Any
    script: str
    cycles: int
    end: str


def fly(name: str, script: str = os.devnull, keys: Optional[Dict[float, str]] = None, seconds: float = 900.0, seed: int = 1) -> Flight:
    """Flies from high gate, up to a second at most. The events of the script happen as well, and the crew presses the keys."""
    import pandas

    flying = craft.Craft(seed=seed)
    rows = []
    with Console(craft.ROPE, script, names=NAMES, program=CONSOLE) as console:
        for now, _ in craft.fly(console, flying, {**craft.APPROACH, **(keys or {})}, seconds):
            tilt = math.degrees(flying.tilt)
            rows.append((now, flying.height, flying.up, flying.forward, -flying.way, tilt, flying.mass))
        return Flight(name, pandas.DataFrame(rows, columns=TRUTH), console.script(), console.cycle, craft.ending(console, flying))


def computed(flight: Flight) -> Any:
    """Returns a frame of what the program computed in a flight, a row each tenth of a second."""
    with tempfile.TemporaryDirectory() as folder:
        script = os.path.join(folder, "script")
        with open(script, "w") as file:
            file.write(flight.script)
        state, jobs = (
            sample(craft.ROPE, script, flight.cycles, file, every=EVERY, names=NAMES, program=STUDY).frame() for file in (QUANTITIES, JOBS)
        )
    state["core_sets"] = (jobs.filter(like="set_") != FREE).sum(axis=1)
    state["vac_areas"] = (jobs.filter(like="vac_") == 0).sum(axis=1)
    return state


def is_new(found: Any) -> Any:
    """Returns whether the program has put a new state in place since the row before."""
    return found[["altitude", "place"]].diff().abs().sum(axis=1) > 0


def errors(flight: Flight, found: Any) -> Any:
    """Returns a frame of what each new state has more than the truth at its moment; the tilt is that of the row."""
    new = found[is_new(found) & (found.flying == 1) & (found.seconds > SETTLED)]
    moments = new.seconds - (new.seconds - new.measured) % ROUND
    truth = flight.truth.iloc[ticks(flight, moments)].reset_index(drop=True)
    now = flight.truth.iloc[ticks(flight, new.seconds)].reset_index(drop=True)
    new = new.reset_index(drop=True)
    off = new[TRUTH[:-1]] - truth[TRUTH[:-1]]
    off["seconds"], off["tilt"] = moments.reset_index(drop=True), new.tilt - now.tilt
    return off


def ticks(flight: Flight, seconds: Any) -> Any:
    """Returns the numbers of the rows of the truth at these seconds."""
    return (seconds * 100 - 1).round().clip(0, len(flight.truth) - 1).astype(int)


def alarms(found: Any) -> List[Tuple[float, str]]:
    """Returns the second and the code of each alarm."""
    marks = []
    for before, now in zip(found[["seconds", *ALARM_CELLS]].values, found[["seconds", *ALARM_CELLS]].values[1:]):
        new = [int(code) for old, code in zip(before[1:], now[1:]) if code not in (0, old)]
        if new:
            marks.append((float(now[0]), f"{new[-1]:o}"))
    return marks


def summary(flight: Flight, found: Any) -> str:
    """Returns a flight in words."""
    off = errors(flight, found)
    flown = found[found.flying == 1]
    most = {name: off[name].abs().max() for name in ("altitude", "altitude_rate", "forward", "tilt")}
    codes = ", ".join(f"{code} at {second:.1f} s" for second, code in alarms(found)) or "none"
    return (
        f"{flight.name}: {flight.end}\n"
        f"  computed less true, from second {SETTLED} on, at most: altitude {most['altitude']:.1f} m, rate {most['altitude_rate']:.2f} m/s, "
        f"forward {most['forward']:.2f} m/s, tilt {most['tilt']:.2f} degrees\n"
        f"  taken at most: {flown.core_sets.max()} core sets, {flown.vac_areas.max()} VAC areas; alarms: {codes}"
    )


def figure(flights: List[Tuple[Flight, Any]]) -> Any:
    """Returns the picture of flights, a column each."""
    from matplotlib.figure import Figure

    whole = Figure(figsize=(6 * len(flights), 11), layout="constrained")
    columns = whole.subplots(len(ROWS), len(flights), sharex="col", sharey="row", squeeze=False).T
    for axes, (flight, found) in zip(columns, flights):
        draw(axes, flight, found[found.flying == 1])
        axes[0].set_title(flight.name)
        axes[-1].set_xlabel("seconds")
        for number, (second, code) in enumerate(alarms(found)):
            for each in axes:
                each.axvline(second, color="tab:red", linewidth=0.8)
            axes[0].annotate(f" {code} ", (second, 0.9), xycoords=("data", "axes fraction"), color="tab:red", ha=("right", "left")[number % 2])
    for each, name in zip(columns[0], ROWS):
        each.set_ylabel(name)
    return whole


def draw(axes: Any, flight: Flight, found: Any) -> None:
    """Draws a flight into its axes: the truth as a broad line, what was computed as a thin one over it."""
    truth, off = flight.truth[flight.truth.mass.diff() != 0][::10], errors(flight, found)
    above, error, rate, tilt, fuel, taken = axes
    for each, name in ((above, "altitude"), (rate, "altitude_rate"), (tilt, "tilt"), (fuel, "mass")):
        empty = craft.DRY if name == "mass" else 0
        each.plot(truth.seconds, truth[name] - empty, color="tab:orange", linewidth=3, label="true")
        each.plot(found.seconds, found[name] - empty, color="tab:blue", linewidth=1, label="computed")
    error.plot(off.seconds, off.altitude, ".", color="tab:blue", markersize=3)
    taken.plot(found.seconds, found.core_sets, color="tab:purple", linewidth=1, label="core sets, of 8")
    taken.plot(found.seconds, found.vac_areas, color="tab:green", linewidth=1, label="VAC areas, of 5")
    for each in (above, taken):
        each.legend(loc="upper right")
    for each in axes:
        each.grid(alpha=0.3)


def keep(folder: str, flight: Flight, found: Any) -> None:
    """Writes a flight's script and both frames into a folder."""
    path = os.path.join(folder, flight.name.replace(" ", "-"))
    with open(path + ".script", "w") as file:
        file.write(flight.script)
    flight.truth.to_csv(path + ".true.csv", index=False)
    found.to_csv(path + ".computed.csv", index=False)


def arguments() -> argparse.Namespace:
    """Returns the command line's words."""
    parser = argparse.ArgumentParser(description="Draws landings: what the program computed, and the truth.")
    parser.add_argument("png", help="the picture that is written")
    parser.add_argument("--seconds", type=float, default=900.0, help="fly at most this many seconds")
    parser.add_argument("--seed", type=int, default=1, help="for the radar's noise, mass, tilt and the known height (1)")
    parser.add_argument("--script", default=ALARM, help="the events of the second flight (the rendezvous radar's pulses)")
    parser.add_argument("--keep", metavar="FOLDER", help="write the scripts and the frames, as CSV, into this folder")
    return parser.parse_args()


def require(module: str) -> None:
    """Ends the program in a sentence if there is no such module."""
    try:
        importlib.import_module(module)
    except ImportError as error:
        sys.exit(f"landing: cannot import {module}: {error}; Debian has it in python3-{module}")


def main() -> None:
    words = arguments()
    for module in ("pandas", "matplotlib"):
        require(module)
    flights = []
    for number, name in enumerate(("a landing", "with alarms")):
        flight = fly(name, words.script, WATCH, words.seconds, words.seed) if number else fly(name, seconds=words.seconds, seed=words.seed)
        found = computed(flight)
        print(summary(flight, found), flush=True)
        flights.append((flight, found))
        if words.keep:
            keep(words.keep, flight, found)
    figure(flights).savefig(words.png, dpi=80, format="png")


if __name__ == "__main__":
    try:
        main()
    except (Error, OSError) as error:
        sys.exit(f"landing: {error}")
