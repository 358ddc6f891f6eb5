#!/usr/bin/env python3
"""Proves the crates on which the program stands, as many at a time as there are processors, and then the program.

usage: tools/prove.py

A crate is proved once all those that it uses are, those with the longest chain above them first. What is proved is kept in
crates/NAME/out, also where this is stopped: the next call goes on from there. Each line on standard error tells how many crates
are proved, and the time so far.
"""

import os
import pathlib
import subprocess
import sys
import time
from concurrent.futures import FIRST_COMPLETED, ThreadPoolExecutor, wait

TOP = pathlib.Path(__file__).resolve().parents[1]
PROGRAM = "rtl2"


def uses_of(text):
    """The crates of crates.txt, each with those of them that it uses."""
    rows = [line.split("#")[0].partition(":") for line in text.splitlines() if ":" in line.split("#")[0]]
    uses = {name.split()[0]: used.split() for name, _, used in rows}
    return {name: [it for it in used if it in uses] for name, used in uses.items()}


def below(uses, name):
    """Those on which the crate stands, lowest first, and itself."""
    found = []

    def visit(it):
        for low in uses[it]:
            if low not in found:
                visit(low)
        if it not in found:
            found.append(it)

    visit(name)
    return found


def lines_of(name):
    """How long a crate is: what proving it takes goes by that."""
    files = [it for it in (TOP / "crates" / name).rglob("*") if it.suffix in (".rt", ".antt") and "out" not in it.parts]
    return sum(it.read_bytes().count(b"\n") for it in files)


def heights(uses, crates):
    """The lines of the longest chain of crates that waits for each."""
    height = {it: lines_of(it) for it in crates}
    own = dict(height)
    for name in reversed(crates):
        for low in uses[name]:
            height[low] = max(height[low], own[low] + height[name])
    return height


def prove(name):
    """Proves a crate; its output where that fails."""
    done = subprocess.run(["rt", "lib"], cwd=TOP / "crates" / name, stdin=subprocess.DEVNULL, stdout=subprocess.PIPE,
                          stderr=subprocess.STDOUT, check=False)
    return None if done.returncode == 0 else done.stdout


def prove_all(uses, libraries, tell):
    """Proves the libraries side by side. The first that fails ends it, with its output."""
    height, left, proved, running = heights(uses, libraries), list(libraries), set(), {}
    with ThreadPoolExecutor(len(os.sched_getaffinity(0))) as pool:
        while left or running:
            ready = sorted((it for it in left if proved.issuperset(uses[it])), key=lambda it: -height[it])
            for name in ready[: pool._max_workers - len(running)]:
                left.remove(name)
                running[pool.submit(prove, name)] = name
            for done in wait(running, return_when=FIRST_COMPLETED).done:
                name, failed = running.pop(done), done.result()
                if failed is not None:
                    pool.shutdown(cancel_futures=True)
                    sys.stderr.buffer.write(failed)
                    return False
                proved.add(name)
                tell(len(proved), name)
    return True


def main():
    uses = uses_of((TOP / "crates.txt").read_text())
    libraries = below(uses, PROGRAM)[:-1]
    begun = time.monotonic()

    def tell(count, name):
        minutes, seconds = divmod(int(time.monotonic() - begun), 60)
        print(f"rtl2: {count} of {len(libraries) + 1} crates proved, {minutes} min {seconds:02} s ({name})", file=sys.stderr, flush=True)

    if not prove_all(uses, libraries, tell):
        return 1
    # the program is proved, built and started once
    done = subprocess.run(["rt", "run", "--", "--version"], cwd=TOP / "crates" / PROGRAM, stdin=subprocess.DEVNULL,
                          stdout=subprocess.PIPE, stderr=subprocess.STDOUT, check=False)
    if done.returncode:
        sys.stderr.buffer.write(done.stdout)
        return 1
    tell(len(libraries) + 1, PROGRAM)
    return 0


if __name__ == "__main__":
    sys.exit(main())
