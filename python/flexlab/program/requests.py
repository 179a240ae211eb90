"""The requests of flexray, each with its files: the role of one and its place among the words.
Written by tools/commands from tools/commands.toml."""

from __future__ import annotations

REQUESTS: dict[str, dict[str, int]] = {
    "bound PARAMS": {"params": 1},
    "bound PARAMS join": {"params": 1},
    "bound PARAMS sharp FLUTTER": {"params": 1},
    "bound PARAMS sharp FLUTTER join": {"params": 1},
    "bound PARAMS sharp FLUTTER lost COUNT": {"params": 1},
    "upgrade PARAMS": {"params": 1},
    "settle PARAMS START RATE": {"params": 1},
    "settle PARAMS START RATE sharp FLUTTER": {"params": 1},
    "settle PARAMS power FLUTTER": {"params": 1},
    "run PARAMS DRIFT SCRIPT": {"params": 1, "drift": 2, "script": 3},
    "run PARAMS DRIFT SCRIPT sharp": {"params": 1, "drift": 2, "script": 3},
    "trace PARAMS DRIFT SCRIPT": {"params": 1, "drift": 2, "script": 3},
    "check PARAMS TRACE": {"params": 1, "trace": 2},
    "check PARAMS TRACE sharp": {"params": 1, "trace": 2},
    "observe PARAMS LOG": {"params": 1, "log": 2},
    "make SEED DOUBLES": {},
    "cold PARAMS POWER": {"params": 1, "power": 2},
    "frame A FILE": {"frame": 2},
    "frame B FILE": {"frame": 2},
    "capture A FILE": {"capture": 2},
    "capture B FILE": {"capture": 2},
    "nm WIDTH FILE": {"vectors": 2},
}

# What the program that a checkout builds first does not answer; nothing stands for a word that a caller gives.
WHOLE: tuple[str, ...] = (
    "settle,,power,",
    "run,,,,sharp",
    "check,,,sharp",
    "observe",
    "help",
    "version",
)
