"""Texts of the examples in Python. Each gets values of which no two are the same, so that a wrong or exchanged name is seen.

What is wanted was worked out by hand from these values, from the pages of the examples and from the landing's table of nouns.
"""
import argparse
import contextlib
import importlib.util
import io
import math
import os
import re
import runpy
import sys
import types
from pathlib import Path

import agc
from judge import TOP, attempt, finish, judge, near, scratch_folder

EXAMPLES = Path(TOP, "examples")
sys.path += [str(EXAMPLES / name) for name in ("descent", "notebook", "campaign", "interpreter")]
SCRATCH = scratch_folder()

NOUNS = {
    "09": ["first alarm octal", "second alarm octal", "last alarm octal"],
    "36": ["hours 1", "minutes 1", "seconds 0.01"],
    "44": ["apolune 0.1 km", "perilune 0.1 km", "forward speed 1 m/s"],
    "47": ["mass 1 kg", "at low gate 1 kg", "on the ground 1 kg"],
    "60": ["forward speed 0.1 m/s", "altitude rate 0.1 m/s", "altitude 1 m"],
    "61": ["time to go 0.1 s", "forward of the site 1 m", "mass 1 kg"],
    "63": ["forward speed 0.1 m/s", "altitude rate 0.1 m/s", "altitude 1 m"],
    "64": ["landing point's angle 1 deg", "altitude rate 0.1 m/s", "altitude 1 m"],
    "66": ["commanded rate 0.1 m/s", "altitude rate 0.1 m/s", "altitude 1 m"],
    "68": ["slant range 1 m", "time to go 0.1 s", "radar less altitude 1 m"],
    "69": ["site moved forward 1 m", "forward of the site 1 m", "time to go 0.1 s"],
    "94": ["speed to be gained 1 m/s", "altitude rate 0.1 m/s", "altitude 0.01 km"],
}
"""What R1, R2 and R3 show, and what a one in the last place is worth: the table of verbs and nouns in the landing's page."""

VERBS = {
    "05": "octal", "06": "decimal", "16": "monitor", "21": "load R1", "22": "load R2", "23": "load R3", "24": "load R1 and R2",
    "25": "load R1, R2 and R3", "33": "proceed", "34": "terminate", "35": "lamp test", "36": "fresh start", "37": "change program",
}
UNITS = {
    "m": "altitude place range radar radar_less abort.altitude abort.place apolune perilune",
    "m/s": "altitude_rate forward rate_wanted radar_forward radar_up abort.rate abort.forward",
    "m/s2": "forward_acc up_acc lift abort.pull",
    "s": "measured clock time_to_go no_radar no_thrust abort.to_go",
    "kg": "mass mass_low mass_ground",
    "deg": "tilt angle tilt_wanted site_angle",
    "N": "thrust",
    "": "program flying autopilot V37FLAG LAMPFLAG FUELFLAG SITEFLAG CUTFLAG first_alarm second_alarm last_alarm in_abort staged",
}


def module_at(path, name):
    """Returns a module of a file, under a name of its own: two examples have a craft.py."""
    spec = importlib.util.spec_from_file_location(name, path)
    assert spec and spec.loader
    found = importlib.util.module_from_spec(spec)
    spec.loader.exec_module(found)
    return found


def printed(task, *words):
    with contextlib.redirect_stdout(io.StringIO()) as found:
        task(*words)
    return [" ".join(line.split()) for line in found.getvalue().splitlines()]


def try_nouns():
    """The display in words: each verb and noun of the landing, with its registers in order."""
    lines = [line.split("#")[0].split(" ", 2) for line in (EXAMPLES / "descent" / "nouns").read_text().splitlines()]
    verbs = {number: text for kind, number, text in (line for line in lines if len(line) == 3) if kind == "verb"}
    nouns = {number: text for kind, number, text in (line for line in lines if len(line) == 3) if kind == "noun"}
    judge("the verbs", VERBS, verbs)
    for number, wanted in NOUNS.items():
        judge(f"noun {number}", ", ".join(f"R{i} {part}" for i, part in enumerate(wanted, 1)), nouns.get(number, "").replace(" = ", " "))
    judge("no other noun", sorted(NOUNS), sorted(nouns))


def try_units():
    """The unit of each quantity of the landing."""
    lines = [line.split("#")[0].split() for line in (EXAMPLES / "descent" / "quantities").read_text().splitlines()]
    units = {line[0]: "".join(line[4:]) for line in lines if line}
    wanted = {name: unit for unit, names in UNITS.items() for name in names.split()}
    judge("units", wanted, units)


def try_rows():
    """The rows of the landing craft, of its side view, of the craft of examples/lander and of the orbit."""
    import craft
    import orbit_view
    import side_view

    lander = craft.Craft(seed=1)
    lander.height, lander.up, lander.forward, lander.way, lander.tilt = 111.0, -2.25, 3.5, 444.0, math.radians(5)
    rows = dict(craft.Instrument(lander).view()["rows"])
    shown = [rows[name] for name in ("Altitude", "Speed up", "Speed forward", "To the site", "Tilt", "Fuel")]
    judge("the landing craft", ["111.0 m", "-2.25 m/s", "+3.50 m/s", "444 m", "+5.0°", f"{lander.fuel():.0f} kg"], shown)
    flight = side_view.Flight(-444.0, 111.0, 3.5, -2.25, math.radians(5), 0.5, (False, False), (0.0, -1.6), False)
    drawn = side_view.drawing(flight, [])
    judge("its drawing", "Side view: 111 m high, 444 m before the site, +5 degrees of tilt", drawn["label"])
    scales = [each["text"] for each in drawn["shapes"] if each["shape"] == "text" and each["style"] == "scale"]
    heights, speeds = [text for text in scales if re.fullmatch(r"\d+ m", text)], [text for text in scales if re.fullmatch(r"[+-]\d+ m/s|0", text)]
    judge("the scale of heights, and that of speeds", (True, ["-5 m/s", "0", "+5 m/s"], len(scales)), (len(heights) > 2, speeds, len(heights) + len(speeds)))

    lander = module_at(EXAMPLES / "lander" / "craft.py", "lander_craft")
    turned = lander.Instrument(lander.Craft(degrees=12.0, degrees_a_second=0.5))
    turned.wanted = round(34 * lander.DEGREE)
    rows = dict(turned.view()["rows"])
    judge("the craft that turns", ["+12.00°", "+34.00°", "+0.50° a second", "none"], [rows[name] for name in ("Angle", "Held angle", "Turning", "Jet")])

    # 100 km up, 1660 m/s: half the long axis is 1 / (2/r - v^2/GM) = 1,901.0 km, so the other end is 225.8 km up
    orbit = orbit_view.Instrument()
    orbit.state, orbit.now = ((1838090.0, 0.0, 0.0), (0.0, 1660.0, 0.0), 0.0), 0.0
    rows = dict(orbit.view()["rows"])
    for name, value in (("Height", 100.0), ("Perilune", 100.0), ("Apolune", 225.8)):
        near(f"the orbit's {name}", value, float(rows[name].replace(" km", "")), 0.3)


def try_campaign():
    """The table of turned bits, and the axes of its picture."""
    campaign = types.SimpleNamespace(**runpy.run_path(str(EXAMPLES / "campaign" / "campaign")))
    flips = [(0, 1), (0, 2), (1, 1), (1, 2), (1, 3)]
    seen = [("yes", "10", "20"), ("no", "", "40"), ("no", "", "60"), ("no", "", ""), ("yes", "", "")]
    rows = {campaign.place_of(flip): [*campaign.place_of(flip), "00000", "00001", *each] for flip, each in zip(flips, seen)}
    results = types.SimpleNamespace(rows=rows)
    table = printed(campaign.print_table, flips, results)
    judge("the table", ["bank flips sum panels median cycle writes median cycle unseen", "02 5 2 1 10 3 40 2", "all 5 2 1 10 3 40 2"], table)
    campaign.draw(os.path.join(SCRATCH, "flips.png"), flips, results)
    from matplotlib import pyplot

    axes, bar = pyplot.gcf().axes
    judge("the picture's axes", ("offset in the bank, octal", "bank, octal", "share that shows"), (axes.get_xlabel(), axes.get_ylabel(), bar.get_ylabel()))
    judge("its numbers", (["02"], ["0000", "0200"]), ([each.get_text() for each in axes.get_yticklabels()], [each.get_text() for each in axes.get_xticklabels()][:2]))


def landings(at):
    """Rows of 21 landings of `flights`, whose numbers differ from column to column."""
    for number in range(21):
        row = {"flight": number, "end": "landed", "up": -0.5 - number / 100, "forward_then": 0.1 + number / 100, "tilt": 1 + number / 100,
               "miss": 30 + number, "fuel_left": 200 + number, "seconds": 100 + number, "speeds": "50:7:-3 10:2:-1"}
        yield [str(row.get(name, "")) for name in at]


def try_flights():
    """The table of touchdowns, and the names of the axes and curves of their pictures."""
    import pictures

    flights = types.SimpleNamespace(**runpy.run_path(str(EXAMPLES / "campaign" / "flights")))
    rows = list(landings(flights.AT))
    table = printed(flights.print_summary, rows, "flights.csv")
    judge("the touchdowns", [
        "21 flights: 21 landed", "at touchdown least 5 % median 95 % most", "down, m/s 0.50 0.51 0.60 0.69 0.70", "forward, m/s 0.10 0.11 0.20 0.29 0.30",
        "tilt, degrees 1.00 1.01 1.10 1.19 1.20", "behind the site, m 30.00 31.00 40.00 49.00 50.00", "fuel, kg 200.00 201.00 210.00 219.00 220.00",
        "seconds 100.00 101.00 110.00 119.00 120.00"], table[:8])
    path = os.path.join(SCRATCH, "flights.csv")
    with open(path, "w") as file:
        file.writelines(",".join(row) + "\n" for row in [list(flights.AT), *rows])
    footprint, speeds, *histograms = pictures.figure(path).axes
    judge("where they touched", ("touchdowns", "behind the site, m", "down at the ground, m/s"), (footprint.get_title(), footprint.get_xlabel(), footprint.get_ylabel()))
    judge("the first of them", [30.0, 0.5], list(footprint.collections[0].get_offsets()[0]))
    judge("their speeds", ("speeds by height", "speed, m/s: median, half and 90 % of the flights", "height, m"), (speeds.get_title(), speeds.get_xlabel(), speeds.get_ylabel()))
    judge("each curve", {"forward": [2, 7], "down": [1, 3]}, {line.get_label(): list(line.get_xdata()) for line in speeds.lines})
    least = {each.get_xlabel(): round(each.patches[0].get_x(), 2) for each in histograms}
    judge("histograms", {"down, m/s": 0.5, "forward, m/s": 0.1, "tilt, degrees": 1.0, "fuel left, kg": 200.0}, least)
    judge("how many", {"flights"}, {each.get_ylabel() for each in histograms})


def try_landing():
    """The picture of examples/notebook: each axis, each curve, and the words about a flight."""
    import craft
    import landing
    import pandas

    truth = pandas.DataFrame([(n / 100, 900 - n, -10 - n, 50 + n, 700 + n, 3 + n / 10, 8000 - n) for n in range(3000)], columns=landing.TRUTH)
    flight = landing.Flight("a test", truth, "", 0, "on the ground")
    found = pandas.DataFrame({"seconds": [13.0, 14.0, 15.0], "measured": [13.0, 14.0, 15.0], "flying": 1})
    for column, first in (("altitude", 100), ("altitude_rate", -20), ("forward", 30), ("place", 400), ("tilt", 5), ("mass", 7000), ("core_sets", 2), ("vac_areas", 1)):
        found[column] = [first, first + 1, first + 2]
    for name in landing.ALARM_CELLS:
        found[name] = 0
    axes = landing.figure([(flight, found)]).axes
    lines = {each.get_ylabel(): {line.get_label(): list(line.get_ydata()) for line in each.lines} for each in axes}
    dry = craft.DRY
    for name, begins in (("altitude, m", 100), ("altitude rate, m/s", -20), ("tilt, degrees", 5), ("fuel, kg", 7000 - dry)):
        judge(f"computed: {name}", [begins, begins + 1, begins + 2], [round(each, 6) for each in lines.get(name, {}).get("computed", [])])
    for name, column in (("altitude, m", "altitude"), ("altitude rate, m/s", "altitude_rate"), ("tilt, degrees", "tilt")):
        judge(f"true: {name}", truth[column][0:20:10].tolist(), lines.get(name, {}).get("true", [])[:2])
    judge("what was taken", {"core sets, of 8": [2, 3, 4], "VAC areas, of 5": [1, 2, 3]}, lines.get("taken"))
    judge("title and seconds", ("a test", "seconds"), (axes[0].get_title(), axes[-1].get_xlabel()))
    judge("the error", True, "computed less true, m" in lines)
    words = landing.summary(flight, found).splitlines()
    # The worst is the state of second 15, beside the truth of second 1499: 102 - (900 - 1499), -18 - (-10 - 1499) and so on.
    worst = "altitude 701.0 m, rate 1491.00 m/s, forward 1517.00 m/s, tilt 145.90 degrees"
    judge("the errors in words", f"computed less true, from second 12 on, at most: {worst}", words[1].strip())
    judge("what was taken, in words", "taken at most: 4 core sets, 3 VAC areas; alarms: none", words[2].strip())


def try_client():
    """A mistake in a call of the client is named."""
    for words in ({}, {"every": 1, "changes": True}):
        try:
            agc.sample("rope", "script", 1, "quantities", **words)
            found = None
        except TypeError as error:
            found = str(error)
        judge(f"rows by {words}", "one of every, at and changes says which rows there are", found)


def main():
    parser = argparse.ArgumentParser()
    parser.add_argument("names", nargs="*")
    names = parser.parse_args().names
    for each in (try_nouns, try_units, try_rows, try_campaign, try_flights, try_landing, try_client):
        if not names or each.__name__ in names:
            attempt(each)
    finish()


if __name__ == "__main__":
    main()
