#!/usr/bin/env python3
"""Says what a program takes for each file: measure.py RUNS FILE.. -- PROGRAM WORD..

The file is the program's last word. A line has the least seconds of the processor (user and system) and the greatest memory of so many runs.
"""
import os
import subprocess
import sys


def run(program, file):
    child = subprocess.Popen(program + [file], stdout=subprocess.DEVNULL, stderr=subprocess.DEVNULL)
    _, _, usage = os.wait4(child.pid, 0)
    return usage.ru_utime + usage.ru_stime, usage.ru_maxrss / 1024


split = sys.argv.index("--")
runs, files, program = int(sys.argv[1]), sys.argv[2:split], sys.argv[split + 1:]
for file in files:
    seen = [run(program, file) for _ in range(runs)]
    seconds, memory = min(s for s, _ in seen), max(m for _, m in seen)
    size = os.path.getsize(file)
    print(f"{os.path.basename(file):24} {seconds:8.3f} s {memory:8.0f} MB {memory * 2**20 / size:6.0f} a byte", flush=True)
