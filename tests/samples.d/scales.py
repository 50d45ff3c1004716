"""Compares what the examples' files of quantities say with the craft's truth, and with double arithmetic for the orbit.

The tolerances are what the examples' pages say of radar, load and arithmetic.
"""

import math
import re
from pathlib import Path
from typing import Dict, List, Tuple

import craft
import orbit
from agc import Console, Row, sample
from judge import CONSOLE, STUDY, TOP, check, judge, near, scratch_folder
from quantities import cell_of, names_of, read

DESCENT, INTERPRETER = Path(TOP, "examples", "descent"), Path(TOP, "examples", "interpreter")
FILES = [(DESCENT / "quantities", DESCENT / "names"), (DESCENT / "jobs.quantities", DESCENT / "names"),
         (INTERPRETER / "orbit.quantities", INTERPRETER / "orbit.names")]
SECONDS = 20.0
ABORT = {4 + 0.25 * number: key for number, key in enumerate("VERB 3 7 ENTR 7 0 ENTR".split())}
ROUND = 163.84  # seconds, after which TIME1 begins anew
STATE = {"altitude": 15.0, "altitude_rate": 2.0, "forward": 2.5, "place": 40.0}
"""How far the state may be from the truth: the radar is wrong by 0.5 percent, the load by 2 m/s."""
ABORTED = {"abort.altitude": 25.0, "abort.rate": 2.0, "abort.forward": 2.5, "abort.place": 40.0}
TRUE = {"altitude": "height", "rate": "up", "altitude_rate": "up", "forward": "forward", "place": "place"}


def try_places() -> None:
    """Checks that each place of the files is in the symbol file, with as many cells as its kind takes."""
    for file, symbols in FILES:
        text, names = file.read_text(), names_of(symbols.read_text())
        quantities = read(text, names)
        places = [line.split()[1] for line in text.splitlines() if line.partition("#")[0].strip()]
        check(f"{file.name}: {len(quantities)} quantities are few", len(quantities) > 10)
        for quantity, place in zip(quantities, places):
            name = place.partition("+")[0]
            check(f"{file.name}: {quantity.name}: {name} is not in {symbols.name}", name in names or cell_of(name, {}) is not None)
            after = min((cell for cell in names.values() if cell > quantity.cell), default=quantity.cell + quantity.size)
            check(f"{file.name}: {quantity.name}: {place} has fewer words than a {quantity.kind}", quantity.cell + quantity.size <= after)


def try_flags() -> None:
    """Checks the bits of the landing's flags against its source: FUELFLAG is the bit of FUELBIT."""
    words = dict(re.findall(r"^(\w+)\s+OCT\s+([0-7]+)\b", (DESCENT / "descent.agc").read_text(), re.MULTILINE))
    words["CUTBIT"] = words["BIT5"]
    flags = [each for each in read(FILES[0][0].read_text(), names_of(FILES[0][1].read_text())) if each.name.endswith("FLAG")]
    judge("flags: how many", 5, len(flags))
    for flag in flags:
        judge(f"flags: {flag.name}", int(words[flag.name.replace("FLAG", "BIT")], 8), 1 << (flag.bits[1] - 1))
        judge(f"flags: {flag.name}: one bit", flag.bits[0], flag.bits[1])


def flown(keys: Dict[float, str]) -> Tuple[str, int, List[Dict[str, float]]]:
    """Flies for some seconds. Returns the script, the cycles, and the craft's truth in each hundredth of a second."""
    flying, truth = craft.Craft(), []
    with Console(craft.ROPE, program=CONSOLE) as console:
        for _ in craft.fly(console, flying, {**craft.APPROACH, **keys}, SECONDS):
            truth.append({"height": flying.height, "up": flying.up, "forward": flying.forward, "place": -flying.way, "mass": flying.mass,
                          "tilt": math.degrees(flying.tilt), "command": flying.command})
        return console.script(), console.cycle, truth


def rows_of(rope: Path, script: str, limit: int, file: Path, names: Path, options: Tuple[str, ...] = ()) -> List[Row]:
    """The rows of a run, ten a second."""
    return list(sample(rope, written(script), limit, file, every=8533, names=names, options=options, program=STUDY))


def written(script: str) -> Path:
    """A file with a script."""
    path = Path(scratch_folder(), "script")
    path.write_text(script)
    return path


def new_states(rows: List[Row], since: float) -> List[Row]:
    """The rows after some second with a state that the row before has not."""
    return [now for before, now in zip(rows, rows[1:]) if now["seconds"] > since and now["place"] != before["place"]]


def moment(row: Row) -> int:
    """The number of the hundredth of a second of a row's state."""
    return round((row["seconds"] - (row["seconds"] - row["measured"]) % ROUND) * 100) - 1


def check_state(what: str, rows: List[Row], truth: List[Dict[str, float]], tolerances: Dict[str, float]) -> None:
    """Compares states with the truth of their moments."""
    check(f"{what}: {len(rows)} states", len(rows) >= 5)
    for name, tolerance in tolerances.items():
        true = TRUE[name.rpartition(".")[2]]
        worst = max((abs(row[name] - truth[moment(row)][true]), row[name]) for row in rows)
        check(f"{what}: {name} {worst[1]} is {worst[0]} off, more than {tolerance}", worst[0] <= tolerance)


def check_craft(what: str, rows: List[Row], truth: List[Dict[str, float]]) -> None:
    """Compares what the program knows of mass, tilt and thrust with the truth."""
    for row in rows:
        now = truth[round(row["seconds"] * 100) - 1]
        near(f"{what}: mass", now["mass"], row["mass"], 150)
        near(f"{what}: tilt", now["tilt"], row["tilt"], 0.5)
        near(f"{what}: tilt by the counter", now["tilt"] % 360, row["angle"], 0.1)
        near(f"{what}: thrust", now["command"], row["thrust"], 0.01)
        near(f"{what}: clock", row["seconds"], row["clock"], 0.011)


def try_landing() -> None:
    """Compares a landing's first seconds with the craft."""
    script, cycles, truth = flown({})
    rows = rows_of(DESCENT / "rope", script, cycles, *FILES[0])
    states = new_states(rows, 10)
    check_state("landing", states, truth, STATE)
    check_craft("landing", states, truth)
    last = states[-1]
    near("landing: radar", truth[moment(last)]["height"], last["radar"], 40)
    steered = list(sample(DESCENT / "rope", written(script), cycles, FILES[0][0], at="STEER+10", names=FILES[0][1], program=STUDY))
    check(f"landing: steered {len(steered)} times", len(steered) > 10)
    for row in steered[2:]:
        check_guidance(row)
    flags = {name: last[name] for name in ("program", "flying", "autopilot", "V37FLAG", "FUELFLAG", "in_abort", "last_alarm")}
    wanted_flags = {"program": 64, "flying": 1, "autopilot": 1, "V37FLAG": 0, "FUELFLAG": 0, "in_abort": 0, "last_alarm": 0}
    check(f"landing: program and flags {flags}", flags == wanted_flags)


def check_guidance(row: Row) -> None:
    """Compares what P64 wants by the formulas of the example's page, as THETAD has just got its word."""
    way, forward = -row["place"], row["forward"]
    near("landing: time to go", 3 * way / (forward + 4), row["time_to_go"], 0.1)
    wanted = 6 / row["time_to_go"] * (2 * way / row["time_to_go"] - (2 + forward))
    near("landing: forward acceleration", wanted, row["forward_acc"], 0.02)
    near("landing: lift", row["up_acc"] + 1.62, row["lift"], 0.002)
    near("landing: its tilt", math.degrees(math.atan2(row["forward_acc"], row["lift"])), row["tilt_wanted"], 0.1)
    near("landing: its thrust", row["mass"] * math.hypot(row["forward_acc"], row["lift"]), row["thrust"], 30)


def try_abort() -> None:
    """Compares an abort's first seconds with the craft."""
    script, cycles, truth = flown(ABORT)
    states = [row for row in new_states(rows_of(DESCENT / "rope", script, cycles, *FILES[0]), 12)]
    check_state("abort", states, truth, ABORTED)
    check_craft("abort", states, truth)
    last, now = states[-1], truth[moment(states[-1])]
    radius = craft.MOON + now["height"]
    near("abort: pull", craft.GRAVITY * (craft.MOON / radius) ** 2 - now["forward"] ** 2 / radius, last["abort.pull"], 0.002)
    near("abort: time to go", (1684 - now["forward"]) / (last["thrust"] / last["mass"]), last["abort.to_go"], 4)
    check(f"abort: program {last['program']}, {last['in_abort']}, {last['staged']}", (last["program"], last["in_abort"], last["staged"]) == (70, 1, 0))


def try_orbit() -> None:
    """Compares an orbit that is keyed, and a burn that is planned, with double arithmetic."""
    there, fast = orbit.state(170 * orbit.MILE, 60 * orbit.MILE, 600, math.radians(10))
    burn = [-30.0, 5.0, 2.0]
    place, speed = orbit.keyed(there, 100), orbit.keyed(fast, 0.1)
    with orbit.Orbit(program=CONSOLE) as console:
        console.show(orbit.keyed_state(there, fast, 0) + "V82E")
        loaded = console.cycle
        console.show(orbit.keyed_burn(1800, burn))
        planned, script = console.cycle, console.script()
    rows = rows_of(INTERPRETER / "orbit.rope", script, planned, *FILES[2], options=(f"--from={loaded}",))
    check_orbit(rows[0], *orbit.later(place, speed, rows[0]["state_time"]))
    row, at_ignition = rows[-1], orbit.later(place, speed, 1800)
    far, low, _, _ = orbit.elements(at_ignition[0], orbit.burnt(*at_ignition, burn))
    near("orbit: apolune after the burn", far / orbit.MILE, row["apolune_then"], 0.1)
    near("orbit: perilune after the burn", low / orbit.MILE, row["perilune_then"], 0.1)
    found = [row[name] for name in ("burn.forward", "burn.right", "burn.down", "ignition", "program", "burn_fits")]
    check(f"orbit: the burn {found}", found == [*burn, 1800, 30, 1])
    near("orbit: time since ignition", row["clock"] - 1800, row["since"], 1)


def check_orbit(row: Row, place: List[float], speed: List[float]) -> None:
    """Compares a row's state and elements with a state and its elements."""
    far, low, left, period = orbit.elements(place, speed)
    axis = (far + low) / 2 + orbit.RADIUS
    across, along = 1 - orbit.size(place) / axis, orbit.dot(place, speed) / math.sqrt(orbit.MU * axis)
    for part, true, fast in zip("xyz", place, speed):
        near(f"orbit: place {part}", true, row[f"position.{part}"], 20)
        near(f"orbit: speed {part}", fast, row[f"velocity.{part}"], 0.03)
    wanted = {
        "distance": (orbit.size(place), 20), "eccentricity": (math.hypot(across, along), 1e-5), "half_axis": (axis, 20), "period": (period, 0.1),
        "anomaly": (math.degrees(math.atan2(along, across)) % 360, 0.01), "mean": (360 * (1 - left / period) % 360, 0.01),
        "apolune_m": (far, 20), "perilune_m": (low, 20), "apolune": (far / orbit.MILE, 0.1), "perilune": (low / orbit.MILE, 0.1),
        "to_perilune": (left - (row["clock"] - row["state_time"]), 1), "clock": (row["seconds"], 0.011), "ready": (1, 0), "computing": (0, 0),
    }
    for name, (value, tolerance) in wanted.items():
        near(f"orbit: {name}", value, row[name], tolerance)
