#!/usr/bin/env python3
"""Times a check of a strategy file beside a count of its lines, and says how much memory each took.

    measure.py PROGRAM FILE LINE TIMES [YARDSTICK]
    measure.py --beside OTHER PROGRAM FILE NAME WORD ..

PROGRAM is the built program, FILE the strategy, LINE the answer that is due, without its line feed, and TIMES how often
each command is run, in turns. The seconds are those of the processor, which other work on the machine disturbs least.
YARDSTICK is another checker, which reads a strategy from standard input: it is run beside the program where it is
given, and the ratios are told. The other commands that read a strategy are timed once: `minimise`, `report`, `upgrade`,
`weaken` to the strategy's own target, and `scale 2` where it is the adversary's. It ends with status 1 where a check
gives another answer.

With --beside it runs the words, with FILE as their input, with both programs in turns, prints how their seconds compare
under the name, and ends with status 1 where PROGRAM is slower.
"""

import os
import subprocess
import sys
import time

TURNS = 6  # of each program, in a comparison
SAME = 1.03  # at most so many times the other's seconds are the same


def compared(name, seconds_of, program, other, turns=TURNS):
    """Takes turns with both programs, of each the seconds that the function tells. Prints the least of each, and
    answers whether the program is no slower than the other one."""
    pairs = [(seconds_of(program), seconds_of(other)) for _ in range(turns)]
    ours, others = (min(seconds) for seconds in zip(*pairs))
    ratio = ours / max(others, 1e-6)
    word = "slower" if ratio > SAME else "faster" if ratio * SAME < 1 else "the same"
    print(f"{name:<36}{ours:9.3f}{others:9.3f} seconds{ratio:7.3f} times, {word}", flush=True)
    return ratio <= SAME


def run(command, path):
    """How a command ends and what it writes for a file, and the seconds of the processor that it takes."""
    with open(path, "rb") as file:
        child = subprocess.Popen(command, stdin=file, stdout=subprocess.PIPE)
        written = child.stdout.read()
        _, status, used = os.wait4(child.pid, 0)
        child.returncode = os.waitstatus_to_exitcode(status)
    return child.returncode, written, used.ru_utime + used.ru_stime


def held(child):
    """The greatest memory in MiB that a process has held so far; 0 where it has ended."""
    try:
        with open(f"/proc/{child.pid}/status", encoding="ascii") as told:
            return next((int(line.split()[1]) for line in told if line.startswith("VmHWM:")), 0) / 1024
    except ProcessLookupError:
        return 0.0


def peak(command, path):
    """The greatest memory in MiB that a command's process has held, read again and again while it runs."""
    most = 0.0
    with open(path, "rb") as file:
        child = subprocess.Popen(command, stdin=file, stdout=subprocess.DEVNULL)
        while child.poll() is None:
            most = max(most, held(child))
            time.sleep(0.001)
    return most


def timed(command, path):
    """Runs a command that reads nothing, with its output in a file: its status, the seconds of the processor that it
    takes, and the greatest memory in MiB that it has held."""
    most, ended = 0.0, 0
    with open(path, "wb") as file:
        child = subprocess.Popen(command, stdin=subprocess.DEVNULL, stdout=file, stderr=subprocess.DEVNULL)
        while not ended:
            most = max(most, held(child))
            time.sleep(0.002)
            ended, status, used = os.wait4(child.pid, os.WNOHANG)
        child.returncode = os.waitstatus_to_exitcode(status)
    return child.returncode, used.ru_utime + used.ru_stime, most


def beside(other, program, path, name, *words):
    """Compares a command of two programs on a file, and answers whether the first is no slower."""

    def seconds_of(program):
        status, _, seconds = run([program, *words], path)
        if status != 0:
            sys.exit(f"{program} {' '.join(words)}: status {status}")
        return seconds

    return compared(name, seconds_of, program, other)


def main():
    if sys.argv[1] == "--beside":
        return 0 if beside(*sys.argv[2:]) else 1
    program, path, line, times, *others = sys.argv[1:]
    due = line.encode() + b"\n"
    checks = {"stretch check": [program, "check"]}
    if others:
        checks["yardstick"] = [others[0]]
    least = {name: [] for name in [*checks, "wc -l"]}
    for _ in range(int(times)):
        for name, command in checks.items():
            status, written, seconds = run(command, path)
            if status != 0 or written != due:
                sys.exit(f"{name}: status {status}, and it wrote {written!r} in place of {due!r}")
            least[name].append(seconds)
        least["wc -l"].append(run(["wc", "-l"], path)[2])
    for name, all_seconds in least.items():
        print(f"{name:<14}", *(f"{seconds:.3f}" for seconds in all_seconds), "seconds of the processor")
    size = os.path.getsize(path) / 1e6
    nodes = int(line.split()[-1])
    taken = min(least["stretch check"])
    print(f"rate of the least {size / taken:.1f} MB a second, {nodes / taken:,.0f} nodes a second")
    print(f"time {taken / max(min(least['wc -l']), 1e-6):.1f} times that of wc -l")
    held = {name: peak(command, path) for name, command in checks.items()}
    print("peak memory " + ", ".join(f"{name} {most:.1f} MiB" for name, most in held.items()))
    side, target = line.split()[1], line.split()[4]
    words = [["minimise"], ["report"], ["upgrade"], ["weaken", target]]
    if side == "adversary":
        words.append(["scale", "2"])
    for command in ([program, *more] for more in words):
        name = " ".join(command[1:])
        status, _, seconds = run(command, path)
        print(f"stretch {name:<11} {seconds:.3f} seconds of the processor, {peak(command, path):.1f} MiB, status {status}")
    if others:
        time_ratio = taken / max(min(least["yardstick"]), 1e-6)
        print(f"beside the yardstick: {time_ratio:.2f} times its time, "
              f"{held['stretch check'] / held['yardstick']:.2f} times its memory")
    return 0


if __name__ == "__main__":
    sys.exit(main())
