"""Builds the programs that stand in bench/ and are no crates of the repository, and runs them.

The gate takes files of Rattle in crates alone, so theirs have other names. Such a program is proved and built by
`rt run` in a copy of the crates that it uses.
"""

import os
import shutil
import subprocess
import sys

TOP = os.path.dirname(os.path.dirname(os.path.abspath(__file__)))


def below(names, lines):
    """These crates and those of the repository below them."""
    found = [name for name in names if name in lines]
    for name in found:
        found += [use for use in lines[name] if use in lines and use not in found]
    return found


def build(name, uses, files, folder):
    """Builds the program of NAME_program/ in a copy of the crates that it uses, and answers its path. The files are
    told with their places in the crate."""
    lines = {}
    with open(os.path.join(TOP, "crates.txt"), encoding="utf-8") as file:
        for line in file:
            crate, _, used = line.partition(":")
            if not line.startswith("#") and used:
                lines[crate] = used.split()
    with open(os.path.join(folder, "crates.txt"), "w", encoding="utf-8") as file:
        for crate in below(uses, lines):
            skip = shutil.ignore_patterns("out")
            shutil.copytree(os.path.join(TOP, "crates", crate), os.path.join(folder, "crates", crate), ignore=skip)
            file.write(f"{crate}: {' '.join(lines[crate])}\n")
        file.write(f"{name}: {' '.join(uses)}\n")
    crate = os.path.join(folder, "crates", name)
    for file, path in files.items():
        os.makedirs(os.path.dirname(os.path.join(crate, path)), exist_ok=True)
        shutil.copy(os.path.join(TOP, "bench", f"{name}_program", file), os.path.join(crate, path))
    subprocess.run(["git", "init", "-q", folder], check=True)
    run = subprocess.run(["rt", "run"], cwd=crate, text=True, stdin=subprocess.DEVNULL, stdout=subprocess.PIPE,
                         stderr=subprocess.STDOUT)
    if run.returncode != 0:
        sys.exit(run.stdout)
    return os.path.join(crate, "out", name)


def kept(program, folder):
    """The path of a copy of the program that is left in the folder; its own path where there is no folder."""
    if not folder:
        return program
    os.makedirs(folder, exist_ok=True)
    return shutil.copy(program, folder)


def lines_of(program, *words, text=b""):
    """The lines that a run of the program over this text writes, in words."""
    run = subprocess.run([program, *map(str, words)], input=text, stdout=subprocess.PIPE, check=True)
    return [line.split() for line in run.stdout.decode().splitlines()]
