"""Runs the gate and says where its time goes: processor seconds of each crate's proof, of its edits that must fail, and of
its tests, by the processes that the gate starts. What the gate prints goes to a file beside the table."""

import os
import re
import subprocess
import sys
import time

HERTZ = os.sysconf("SC_CLK_TCK")


def text_of(path):
    try:
        with open(path, errors="replace") as file:
            return file.read()
    except OSError:
        return ""


def work_of(process):
    """What a check of the gate works on: the crate, and its proof, edits or tests. None for any other process."""
    words = text_of(f"/proc/{process}/cmdline").split("\0")
    if len(words) < 3 or os.path.basename(words[0]) != "rattle" or "--crate-name" not in words:
        return None
    crate = words[words.index("--crate-name") + 1]
    try:
        folder = os.readlink(f"/proc/{process}/cwd")
    except OSError:
        return None
    if "/rt-edit-" in folder:
        return crate, "edits"
    return crate, "tests" if "--test" in words else "proof"


def seconds_of(process):
    """Processor seconds of a process and of the children that it has waited for."""
    fields = text_of(f"/proc/{process}/stat").rpartition(")")[2].split()
    return sum(int(it) for it in fields[11:15]) / HERTZ if len(fields) > 14 else 0.0


def parent_of(process):
    found = re.search(r"(?m)^PPid:\s+(\d+)", text_of(f"/proc/{process}/status"))
    return int(found[1]) if found else 0


def is_below(process, top):
    """Whether the process was started by the one at the top, or by one that was."""
    while process > 1:
        if process == top:
            return True
        process = parent_of(process)
    return False


def sample(top, seen):
    for name in os.listdir("/proc"):
        if not name.isdigit():
            continue
        process = int(name)
        if process not in seen:
            work = work_of(process)
            # A check that works by several processes is counted at the first of them, which waits for the others.
            if work is None or parent_of(process) in seen or not is_below(process, top):
                continue
            seen[process] = [work, 0.0]
        seen[process][1] = max(seen[process][1], seconds_of(process))


def table(seen):
    """Minutes for each crate, the dearest first, as lines of Markdown."""
    crates = {}
    for (crate, kind), seconds in seen.values():
        of_crate = crates.setdefault(crate, {"proof": 0.0, "edits": 0.0, "tests": 0.0})
        of_crate[kind] += seconds
    lines = ["| Crate | Proof | Edits | Tests | Together |", "|---|---|---|---|---|"]
    row = "| {} | {:.0f} | {:.0f} | {:.0f} | {:.0f} |"
    for crate, cost in sorted(crates.items(), key=lambda it: -sum(it[1].values())):
        lines.append(row.format(crate, cost["proof"], cost["edits"], cost["tests"], sum(cost.values())))
    sums = [sum(it[kind] for it in crates.values()) for kind in ("proof", "edits", "tests")]
    lines.append(row.format("all", *sums, sum(sums)))
    return lines


def main(said, words):
    before, begun = os.times(), time.time()
    seen = {}
    with open(said, "w") as out:
        gate = subprocess.Popen(["rt", "ci", *words], stdout=out, stderr=subprocess.STDOUT)
        while gate.poll() is None:
            sample(gate.pid, seen)
            time.sleep(0.5)
    after = os.times()
    spent = after.children_user + after.children_system - before.children_user - before.children_system
    print(text_of(said).rstrip("\n").rpartition("\n")[2])
    print(f"{(time.time() - begun) / 60:.0f} minutes by the clock, {spent / 60:.0f} processor minutes, {os.cpu_count()} processors")
    print("\nProcessor seconds:\n")
    print("\n".join(table(seen)))
    return gate.returncode


if __name__ == "__main__":
    sys.exit(main(sys.argv[1], sys.argv[2:]))
