#!/usr/bin/env python3
"""Runs a program on a line and prints the seconds of processor time that it took.

Usage: bench/seconds.py PROGRAM LINE PRINTED

What the program prints goes into the file PRINTED. It ends with 1 if the program knows no such line. Processor time is counted, and not the time that
passes, so that the figure stands on a machine that has other work too.
"""
import resource
import subprocess
import sys

program, line, printed = sys.argv[1:]
with open(printed, "w") as out:
    subprocess.run([program], input=line + "\n", stdout=out, text=True, check=True)
with open(printed) as out:
    if any(it.startswith("no such line") for it in out):
        sys.exit(f"{program} has no such line: {line}")
used = resource.getrusage(resource.RUSAGE_CHILDREN)
print(f"{used.ru_utime + used.ru_stime:.6f}")
