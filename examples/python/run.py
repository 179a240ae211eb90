#!/usr/bin/env python3
"""Runs the cluster of the example `bench`, and prints what `flexray run` prints of it."""
import sys
from pathlib import Path

import flexray

folder = Path(sys.argv[1]) if len(sys.argv) > 1 else Path(__file__).parent.parent / "bench"
report = flexray.run(folder / "params.csv", folder / "drift.csv", folder / "script.csv")
print(report.text, end="")
