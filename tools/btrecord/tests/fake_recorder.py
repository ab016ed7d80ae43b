"""Runs the recorder over a tree that stands for tracefs: fake_recorder.py TOP OUTPUT SECONDS [latest]"""
import sys

from made import Kernel, payload, ticks

from output import Output
from record import Asked, record

top, path, seconds, *kept = sys.argv[1:]
kernel = Kernel(top, {0: [ticks(5, payload(), payload())]})
with kernel.running():
    made = record(Asked(["demo:tick"], float(seconds), 64, top, keeps_latest=kept == ["latest"]), lambda: Output(path))
print("\n".join(made.notes))
