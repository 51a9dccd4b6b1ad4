"""The dearest functions of a crate: the bytes that a check keeps of each, which are in proportion to its seconds."""

import os
import re
import sys


def function_of(module):
    """The function that a kept module belongs to: module names end with what is kept of it, as `.Lts` (the walk of the
    borrow checker) or `.Proof.2` (a goal). A module of definitions or lemmas stands for itself."""
    path = re.sub(r"^Rattle-\w+?-(specs|proofs)\.", lambda it: "" if it[1] == "proofs" else "specs.", module)
    parts = path.split(".")
    for at, part in enumerate(parts):
        if at and re.fullmatch(r"(Lts|Proof|Tie|Code|Reads|Layout|Mir|Named|Kinds|Met|Statement|Key|Given|View|Goals|Answers|Invariants|TheLaws|Facts|Env)(-\w+)?", part):
            return ".".join(parts[:at])
    return path


def sizes(kept):
    found = {}
    for at, _, files in os.walk(kept):
        for name in files:
            if name.endswith(".oantt"):
                function = function_of(name.removesuffix(".oantt"))
                found[function] = found.get(function, 0) + os.path.getsize(f"{at}/{name}")
    return found


def main(kept, most):
    found = sizes(kept)
    together = sum(found.values())
    print(f"{together / 1e6:.0f} MB are kept, of {len(found)} functions and files of lemmas")
    for function, size in sorted(found.items(), key=lambda it: -it[1])[:most]:
        print(f"{size / 1e6:8.2f} MB {100 * size / max(together, 1):5.1f} %  {function}")


if __name__ == "__main__":
    main(sys.argv[1], int(sys.argv[2]))
