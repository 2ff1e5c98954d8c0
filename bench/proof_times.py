#!/usr/bin/env python3
"""What a proof of a crate takes, by function and by kind of work.

    bench/proof_times.py FOLDER [COUNT]

FOLDER is an incremental folder that one check of the crate with one job has just filled from nothing, as
`rattle check --incremental FOLDER --jobs 1` does. Each file was written when what it holds was checked, so
that the time since the file before tells how long that took. It prints the kinds, and then the COUNT (20)
functions that took most, in seconds of the clock.
"""
import os
import re
import sys
from collections import Counter


def written(folder):
    """The files of a folder with the times at which they were written, in the order of these."""
    found = []
    for at, _, names in os.walk(folder):
        for name in names:
            if name.endswith(".oantt"):
                found.append((os.stat(os.path.join(at, name)).st_mtime_ns, name))
    return sorted(found)


def taken(files):
    """Seconds by kind of work, and by function or file of proofs."""
    kinds, functions = Counter(), Counter()
    for (before, _), (time, name) in zip(files, files[1:]):
        path = re.sub(r"(\.decls)?\.oantt$", "", name)
        function, _, kind = path.rpartition(".")
        kinds[kind] += (time - before) / 1e9
        functions[re.sub(r"^Rattle-\w+-proofs\.", "", function)] += (time - before) / 1e9
    return kinds, functions


def main(words):
    """Prints both tables."""
    if not 1 <= len(words) <= 2:
        print(__doc__.strip(), file=sys.stderr)
        return 2
    count = int(words[1]) if len(words) == 2 else 20
    for title, found in zip(("kind", "function"), taken(written(words[0]))):
        print(f"seconds  {title}")
        for name, seconds in found.most_common(count):
            print(f"{seconds:7.1f}  {name}")
    return 0


if __name__ == "__main__":
    sys.exit(main(sys.argv[1:]))
