"""Megabytes in a second of the passes that read a source: tokens with their words, the parse, and the trees.

    python3 bench/reading.py PROGRAM [BYTES]

`list` of the built program is timed, the best of ten runs each, on an empty source and on sources of a million bytes that are refused at their last token, at their last word, and behind their
trees. The difference of one to the one before is what its pass took.
"""
import os
import subprocess
import sys
import tempfile
import time

from sources import long_source, no_token_source, not_built_source

RUNS = 10
PASSES = [("start", None, 0), ("tokens and words", no_token_source, 3), ("parse", long_source, 3), ("trees", not_built_source, 3)]


def best_of(program, path, wanted):
    """The seconds of the fastest run; the status has to be the wanted one."""
    times = []
    for _ in range(RUNS):
        start = time.monotonic()
        done = subprocess.run([program, "list", path], capture_output=True, check=False)
        times.append(time.monotonic() - start)
        if done.returncode != wanted:
            sys.exit(f"{path}: status {done.returncode} in place of {wanted}")
    return min(times)


def main():
    program, size = os.path.realpath(sys.argv[1]), int((sys.argv + ["1000000"])[2])
    before = 0.0
    with tempfile.TemporaryDirectory() as folder:
        for name, source, wanted in PASSES:
            text = source(size)[0] if source else ""
            path = os.path.join(folder, "source.rs")
            with open(path, "w", encoding="utf-8") as out:
                out.write(text)
            seconds = best_of(program, path, wanted)
            took = seconds - before
            speed = f", {len(text) / 1e6 / took:.0f} MB/s" if source and took > 0 else ""
            print(f"{name}: {took * 1000:.1f} ms{speed}")
            before = seconds


main()
