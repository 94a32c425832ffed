#!/usr/bin/env python3
"""Applies each slip of tests/slips to a copy of the second program, builds it,
and tells whether random events notice it: `slips.py [FILE.txt ...]`.

A slip is a line `# why`, then `file:`, `old:` and `new:`; `old` stands once in
the file. What the listing does not reach (store, host, data, lines) is seen
by `sides`, all else by `second` on the lines of `events`."""

import os
import shutil
import subprocess
import sys
import tempfile
from concurrent.futures import ThreadPoolExecutor
from queue import Queue

HERE = os.path.dirname(os.path.abspath(__file__))
SECOND = os.path.join(HERE, "second", "src")
SLIPS = os.path.join(HERE, "slips")
BY_SIDES = ("store.txt", "host.txt", "data.txt", "lines.txt")
# The short run first: it notices most, and the first that differs is enough.
EVENTS = [(1, 4000), (2, 20000), (3, 20000)]
SIDES = [(1, 2000), (2, 10000), (3, 30000)]
WORKERS = 2
# Quicker to build than to run well: no optimizing, and only what is needed.
RUSTC = ["rustc", "--edition", "2021", "-C", "opt-level=0", "-C", "debuginfo=0", "--cap-lints", "allow"]
LISTING = {"blocks", "command", "crc", "frame", "listing", "model", "timer"}
NOT_IN_SIDES = {"coverage", "situations", "tally"}


def read_slips(names):
    for name in names:
        with open(os.path.join(SLIPS, name)) as file:
            for entry in file.read().strip().split("\n\n"):
                why, *fields = entry.split("\n")
                slip = dict(line.split(":", 1) for line in fields)
                slip = {key: value.strip() for key, value in slip.items()}
                yield name, why.removeprefix("# "), slip


def rustc(folder, *arguments):
    done = subprocess.run([*RUSTC, *arguments], cwd=folder, stderr=subprocess.PIPE, text=True)
    if done.returncode:
        raise RuntimeError(done.stderr)


def modules(binary):
    every = {name.removesuffix(".rs") for name in os.listdir(SECOND) if name.endswith(".rs")} - {"lib"}
    return LISTING if binary == "second" else every - NOT_IN_SIDES


def build(folder, binary):
    with open(os.path.join(folder, "lib.rs"), "w") as file:
        file.writelines(f"pub mod {name};\n" for name in sorted(modules(binary)))
    kept = ["-C", f"incremental=kept-{binary}"]
    rustc(folder, "--crate-type", "rlib", "--crate-name", "second", *kept, "-o", "libsecond.rlib", "lib.rs")
    rustc(folder, "--extern", "second=libsecond.rlib", "-o", f"run-{binary}", f"bin/{binary}.rs")


def run(folder, binary, *arguments, lines=b""):
    command = [os.path.join(folder, f"run-{binary}"), *map(str, arguments)]
    try:
        done = subprocess.run(command, input=lines, timeout=60, stdout=subprocess.PIPE, stderr=subprocess.DEVNULL)
    except subprocess.TimeoutExpired:
        return b"no end"
    return done.stdout


def edited(folder, slip):
    path = os.path.join(folder, os.path.basename(slip["file"]))
    with open(path) as file:
        text = file.read()
    if text.count(slip["old"]) != 1:
        raise RuntimeError(f"not once in {slip['file']}: {slip['old']}")
    with open(path, "w") as file:
        file.write(text.replace(slip["old"], slip["new"]))
    return path, text


def noticed(folder, slip, binary, cases):
    """A case: arguments, input, and what the sound program gives."""
    path, text = edited(folder, slip)
    try:
        build(folder, binary)
        return any(run(folder, binary, *args, lines=lines) != good for args, lines, good in cases)
    except RuntimeError as error:
        raise RuntimeError(f"{slip}: {error}") from error
    finally:
        with open(path, "w") as file:
            file.write(text)


def sound_cases(folder):
    for binary in ("second", "events", "sides"):
        build(folder, binary)
    events = [run(folder, "events", *pair) for pair in EVENTS]
    listing = [((), lines, run(folder, "second", lines=lines)) for lines in events]
    sides = [(pair, b"", run(folder, "sides", *pair)) for pair in SIDES]
    return {"second": listing, "sides": sides}


def judged(slips, temporary):
    cases = sound_cases(shutil.copytree(SECOND, os.path.join(temporary, "sound")))
    folders = Queue()
    for number in range(WORKERS):
        folders.put(shutil.copytree(SECOND, os.path.join(temporary, str(number))))

    def judge(entry):
        name, _, slip = entry
        binary = "sides" if name in BY_SIDES else "second"
        folder = folders.get()
        try:
            return noticed(folder, slip, binary, cases[binary])
        finally:
            folders.put(folder)

    with ThreadPoolExecutor(WORKERS) as pool:
        return list(pool.map(judge, slips))


def main():
    slips = list(read_slips(sys.argv[1:] or sorted(os.listdir(SLIPS))))
    with tempfile.TemporaryDirectory() as temporary:
        results = judged(slips, temporary)
    for (name, why, _), seen in zip(slips, results):
        if not seen:
            print(f"not noticed: {name}: {why}")
    print(f"{sum(results)} of {len(slips)} noticed")
    return 0 if all(results) else 1


if __name__ == "__main__":
    sys.exit(main())
