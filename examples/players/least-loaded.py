#!/usr/bin/env python3
# Takes the bin with the least load.
import sys

for line in iter(sys.stdin.readline, ""):
    word, *numbers = line.split()
    if word == "session":
        loads = [0] * int(numbers[0])
    elif word == "item":
        bin = loads.index(min(loads))
        loads[bin] += int(numbers[0])
        print("bin", bin, flush=True)
