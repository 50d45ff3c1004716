"""Pictures of a file of results of `flights`: where and how the flights touched the ground, and their speeds by height.

In a notebook `pictures.figure("flights.csv")` is the figure.
"""

import csv

LIMITS = {"down, m/s": 1.5, "forward, m/s": 0.6, "tilt, degrees": 3.0}
COLOURS = {"landed": "tab:blue", "crashed": "tab:red"}


def rows_of(path):
    """Returns the rows of a file of results as dicts."""
    with open(path, newline="") as file:
        lines = [line for line in file if not line.startswith("#")]
    return list(csv.DictReader(lines))


def footprint(axes, rows):
    """Draws each touchdown: how far behind the site, and how fast down."""
    for end, colour in COLOURS.items():
        found = [(float(row["miss"]), -float(row["up"])) for row in rows if row["end"] == end]
        if found:
            axes.scatter(*zip(*found), s=6, alpha=0.5, color=colour, label=f"{end}: {len(found)}", rasterized=True)
    axes.axhline(LIMITS["down, m/s"], color="tab:red", linewidth=0.8)
    axes.axvline(0, color="black", linewidth=0.8)
    axes.set_xlabel("behind the site, m")
    axes.set_ylabel("down at the ground, m/s")
    axes.set_title("touchdowns")
    if any(row["end"] in COLOURS for row in rows):
        axes.legend()


def histogram(axes, values, name):
    """Draws how often a quantity has which value, with the limit of a landing if there is one."""
    axes.hist(values, bins=40, color="tab:blue")
    for side in (-1, 1) if name in LIMITS and values else ():
        limit = side * LIMITS[name]
        if min(values) <= limit <= max(values):
            axes.axvline(limit, color="tab:red", linewidth=0.8)
    axes.set_xlabel(name)
    axes.set_ylabel("flights")


def share(values, part):
    """Returns the value below which this part of sorted values lies."""
    return values[round(part * (len(values) - 1))]


def speeds_by_height(rows):
    """Returns for each height the sorted speeds forward and down of the flights that came through it."""
    found = {}
    for row in rows:
        for word in row["speeds"].split():
            height, forward, up = (float(text) for text in word.split(":"))
            forwards, downs = found.setdefault(height, ([], []))
            forwards.append(forward)
            downs.append(-up)
    return {height: (sorted(pair[0]), sorted(pair[1])) for height, pair in sorted(found.items())}


def bands(axes, rows):
    """Draws height against both speeds: the median, and bands of half and of nine tenths of the flights."""
    found = speeds_by_height(rows)
    heights = list(found)
    for which, (name, colour) in enumerate((("forward", "tab:blue"), ("down", "tab:orange"))):
        for low, high, alpha in ((0.05, 0.95, 0.2), (0.25, 0.75, 0.35)):
            edges = [[share(found[height][which], part) for height in heights] for part in (low, high)]
            axes.fill_betweenx(heights, *edges, color=colour, alpha=alpha, linewidth=0)
        axes.plot([share(found[height][which], 0.5) for height in heights], heights, color=colour, label=name)
    axes.set_xlabel("speed, m/s: median, half and 90 % of the flights")
    axes.set_ylabel("height, m")
    axes.set_yscale("symlog", linthresh=10)
    axes.set_title("speeds by height")
    axes.legend()


def figure(path):
    """Returns the figure of a file of results: footprint, speeds by height, and histograms."""
    from matplotlib.figure import Figure

    rows = rows_of(path)
    down = [row for row in rows if row["up"]]
    whole = Figure(figsize=(11, 8), layout="constrained")
    above, below = whole.subfigures(2, height_ratios=(3, 2))
    left, right = above.subplots(1, 2)
    footprint(left, rows)
    bands(right, rows)
    columns = {"down, m/s": ("up", -1), "forward, m/s": ("forward_then", 1), "tilt, degrees": ("tilt", 1), "fuel left, kg": ("fuel_left", 1)}
    for axes, (name, (column, sign)) in zip(below.subplots(1, 4), columns.items()):
        histogram(axes, [sign * float(row[column]) for row in down], name)
    return whole


def draw(path, png):
    """Draws a file of results into a PNG file."""
    figure(path).savefig(png, dpi=100, format="png")
