"""Runs the built program on an input, and tells its seconds, its greatest memory in MiB, its status and what it wrote.

The program is started from a small process of its own, since a process counts the memory of the one that started it.
"""
import json
import os
import shutil
import subprocess
import sys
import tempfile

PROGRAM = os.path.join(os.path.dirname(os.path.abspath(__file__)), "..", "crates", "openr_lab", "out", "openr_lab")

STARTER = """
import json, os, sys, time
start = time.monotonic()
child = os.posix_spawn(sys.argv[1], sys.argv[1:], os.environ)
_, status, usage = os.wait4(child, 0)
sys.stderr.write(json.dumps([time.monotonic() - start, usage.ru_maxrss / 1024, os.waitstatus_to_exitcode(status)]))
"""


def run(data, words=("replay",)):
    if not os.path.exists(PROGRAM):
        sys.exit("build the program first: ./lab replay < examples/two_stores.jsonl")
    with tempfile.TemporaryFile() as source, tempfile.TemporaryFile() as sink:
        source.write(data)
        source.seek(0)
        command = [sys.executable, "-I", "-S", "-c", STARTER, PROGRAM, *words]
        told = subprocess.run(command, stdin=source, stdout=sink, stderr=subprocess.PIPE, check=True)
        sink.seek(0)
        return (*json.loads(told.stderr), sink.read())


def best(data, times=3):
    """The least seconds of some runs, and the rest of the last."""
    runs = [run(data) for _ in range(times)]
    return (min(r[0] for r in runs),) + runs[-1][1:]


def share(data, parts):
    """The percentage of a run's time, by samples of `perf`, that is spent in functions whose name has one of these parts."""
    if shutil.which("perf") is None:
        sys.exit("this needs `perf`")
    with tempfile.TemporaryDirectory() as folder, tempfile.TemporaryFile() as source:
        source.write(data)
        source.seek(0)
        samples = os.path.join(folder, "samples")
        quiet = {"stdout": subprocess.DEVNULL, "stderr": subprocess.DEVNULL, "check": True}
        subprocess.run(["perf", "record", "-F", "999", "-o", samples, PROGRAM, "replay"], stdin=source, **quiet)
        report = ["perf", "report", "-i", samples, "--stdio", "-F", "overhead,symbol"]
        lines = subprocess.run(report, capture_output=True, text=True, check=True).stdout.splitlines()
    rows = [line.split("%", 1) for line in lines if "%" in line and not line.startswith("#")]
    return sum(float(percent) for percent, symbol in rows if any(part in symbol for part in parts))
