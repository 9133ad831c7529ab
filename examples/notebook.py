# %% [markdown]
# A morning in the commuter town, cell by cell: python3 examples/notebook.py, or open it where `# %%` begins a cell (VS Code, Spyder, jupytext).
#
# It needs NumPy and pandas (apt-get install python3-pandas, or pip install pandas), and for its last cell GeoPandas.

# %% The town: names of crossings, and the road with its timetables.
import os
import sys

import earliest

try:
    import numpy as np
    import pandas as pd
except ImportError as missing:
    sys.exit(f"notebook.py needs NumPy and pandas ({missing}): apt-get install python3-pandas, or pip install pandas")

HERE = os.path.dirname(os.path.abspath(sys.argv[0] if "__file__" not in globals() else __file__))
with open(os.path.join(HERE, "commuter.co"), encoding="ascii") as file:
    places = pd.DataFrame([line.split()[1:] for line in file if line.startswith("v")], columns=["number", "x", "y"]).astype(int)
# A crossing is called by its column, from A in the west, and its row, from 1 in the south; column K is the river.
places.index = [f"{'ABCDEFGHIJKLMNOPQRSTU'[x // 100]}{1 + y // 100}" for x, y in zip(places.x, places.y)]

town = earliest.Road.read(os.path.join(HERE, "commuter.gr"), os.path.join(HERE, "commuter.tp")).named(places.index)
HOME, WORK = town.name(225), town.name(236)
# The timetables count seconds from midnight.
DAY = {"unit": "s", "origin": "2026-11-23"}
print(town, "home is", HOME, "and work is", WORK)

# %% A matrix: minutes from some places to some others, leaving at 8:10.
some = [HOME, "A1", "U15", WORK]
leave = np.datetime64("2026-11-23T08:10")
matrix = town.arrivals(some, leave, nodes=some, **DAY)
print("\nminutes, leaving at 8:10")
print(pd.DataFrame((matrix - leave) / np.timedelta64(60, "s"), index=some, columns=some).round(1).to_string())

# %% A profile: how long the way to work takes over the morning.
departures = np.arange("2026-11-23T06:00", "2026-11-23T10:01", 30, dtype="datetime64[m]")
takes = town.profile(HOME, WORK, departures, **DAY) - departures
print("\nminutes to work")
print(pd.Series(takes / np.timedelta64(60, "s"), index=pd.to_datetime(departures).strftime("%H:%M")).round(1).to_string())

# %% The latest departure: when to leave to be at work by 8:30.
latest = town.latest(HOME, WORK, np.datetime64("2026-11-23T08:30"), **DAY)
print("\nto be at work by 8:30, leave at", str(latest)[11:])

# %% A table of isochrones by name: who is where within how many minutes, leaving home at 8:10.
answer = town.search(HOME, leave, **DAY)
minutes = (answer.series("minutes") - pd.Timestamp(leave)) / pd.Timedelta(minutes=1)
bands = pd.cut(minutes, [0, 5, 10, 15, 20, np.inf], right=False, labels=["to 5", "to 10", "to 15", "to 20", "above"])
table = minutes.groupby(bands, observed=False).agg(["size", "max", "idxmax"]).rename(columns={"size": "crossings", "max": "last after", "idxmax": "last"})
print("\nisochrones in minutes, leaving home at 8:10")
print(table.round(1).to_string())
print("the way to the last of them:", " ".join(answer.path(minutes.idxmax())))

# %% A GeoDataFrame of the crossings, joined with their arrivals.
try:
    import geopandas as gpd
except ImportError:
    print("\nleft out: the GeoDataFrame, since GeoPandas is not there (apt-get install python3-geopandas, or pip install geopandas)")
else:
    crossings = gpd.GeoDataFrame(places[["number"]], geometry=gpd.points_from_xy(places.x, places.y)).join(minutes).join(bands.rename("band"))
    areas = crossings.dissolve("band", observed=True).convex_hull
    print("\nthe area that the crossings of a band span, in square kilometres")
    print((areas.area / 1e6).round(2).to_string())
