"""Runs of programs, timed."""
import json
import os
import statistics
import subprocess
import sys
import tempfile
import time


def programs(words):
    """The programs to measure, by the words NAME=PROGRAM: the built one if there is none."""
    top = os.path.dirname(os.path.dirname(os.path.abspath(__file__)))
    built = [f"starload={top}/crates/starload/out/starload"]
    found = dict(word.split("=", 1) for word in words or built)
    for program in found.values():
        if not os.access(program, os.X_OK):
            sys.exit(f"{program} is no program: build it first (./test, or rt run in crates/starload)")
    return found


def bundle_of(files):
    return json.dumps(files).encode()


def once(program, bundle, root, loaders=1, steps=100000000):
    """The seconds of one run, and its report."""
    words = [program, "--loaders", str(loaders), "--steps", str(steps), root]
    began = time.perf_counter()
    run = subprocess.Popen(words, stdin=subprocess.PIPE, stdout=subprocess.PIPE, stderr=subprocess.DEVNULL)
    report = run.communicate(bundle)[0]
    took = time.perf_counter() - began
    return took, report


def measured(program, bundle, root, loaders, steps=100000000):
    """The seconds of one run over the bundle in a file, those of the processor, the most MiB, and its report."""
    bundle.seek(0)
    # by the program `time`, since the memory of a child begins with that of the process that started it
    with tempfile.NamedTemporaryFile("r") as used:
        words = ["time", "-o", used.name, "-f", "%M %U %S", program, "--loaders", str(loaders), "--steps", str(steps), root]
        began = time.perf_counter()
        report = subprocess.run(words, stdin=bundle, stdout=subprocess.PIPE, stderr=subprocess.DEVNULL).stdout
        took = time.perf_counter() - began
        kib, user, system = used.read().split()[-3:]
    return (took, float(user) + float(system), int(kib) / 1024), report


def median(program, bundle, root, loaders, rounds):
    """The median of the seconds of several runs, and their report."""
    runs = [once(program, bundle, root, loaders) for _ in range(rounds)]
    return statistics.median(took for took, _ in runs), runs[0][1]
