#!/usr/bin/env python3
"""How much better do clocks keep together with better oscillators? A study of the example `bench`, in one process.

Run it cell by cell in a notebook, or as a script. It needs the package `flexray` (docs/PYTHON.md) and nothing else.
"""
# %% The cluster: its files as texts, and how long a microtick lasts.
from concurrent.futures import ThreadPoolExecutor
from pathlib import Path

import flexray

FOLDER = Path(__file__).parent.parent / "bench"
MICROTICK_NS = 25
params, drift, script = ((FOLDER / f"{name}.csv").read_text() for name in ("params", "drift", "script"))

# %% What is proved of it: the sharper precision, and by which checks.
bound = flexray.sharp_bound(params, flutter=0)
print(f"sharp precision beside arbitrary nodes: {flexray.to_us(bound.beside.precision, MICROTICK_NS):.3f} us")
print("failing checks:", ", ".join(f"C{check.number}" for check in bound.beside.failing) or "none")


# %% The same cluster with each oscillator off by a part of what the file says.
def scaled(percent: int) -> str:
    """The drift file with oscillators that are off by so many percent of what they are off in it."""
    lines = []
    for line in drift.splitlines():
        fields = line.split(",")
        if fields[0] == "length":
            ppm = flexray.ppm_of(int(fields[3])) * percent / 100
            fields[3] = str(flexray.length_of(ppm))
        lines.append(",".join(fields))
    return "\n".join(lines) + "\n"


# %% One run a part, in threads: a call gives up the interpreter's lock.
def measured(percent: int) -> tuple[int, flexray.SharpSeries]:
    return percent, flexray.sharp_series(params, scaled(percent), script)


with ThreadPoolExecutor() as pool:
    runs = dict(pool.map(measured, range(0, 101, 20)))

# %% The greatest skew since sharp sync, and of the last hundred cycles.
print("oscillators   covered   since sync    later")
for percent, series in runs.items():
    later = max(cycle.skew for cycle in series.cycles[-100:])
    since = series.sharp_greatest
    print(f"{percent:>9} %   {'yes' if series.sharp_covered else 'no':>7}"
          f"   {flexray.to_us(since.ticks, MICROTICK_NS) if since else float('nan'):>7.3f} us"
          f"   {flexray.to_us(later, MICROTICK_NS):.3f} us")

# %% What is refused says which file, which record, and why.
try:
    flexray.run(params, drift.replace("doubles,200,", "doubles,0,"), script)
except flexray.Refused as refused:
    print(f"{refused.role}, record {refused.record}: {refused.reason}")
