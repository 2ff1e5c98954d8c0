#!/usr/bin/env python3
"""Measures the load of data texts: processor seconds, seconds and peak memory, beside `serdi -q` where it
is installed (Debian's package serdi), and hostile texts. Run it at the top of the repository, on a quiet
machine.

    bench/load.py [COUNT ..]    texts of so many triples (10000, 100000, 1000000 and 4000000 where no count
                                is given)
    bench/load.py hostile       texts of 100 million bytes that are hard to pass
    bench/load.py shared        texts whose triples share a long part; terms that differ in their tag alone
    bench/load.py script        scripts behind 1000000 triples, less the load: 100000 insertions of new terms,
                                as many with labels, of which the data text has a million, and a million
                                blank lines
"""
import os
import shutil
import subprocess
import sys
import tempfile
import time

from built import PROGRAM

HERE = os.path.dirname(os.path.abspath(__file__))


def run(words, out):
    """Runs a command, and gives processor seconds, seconds, peak memory in MB, and what it wrote first."""
    began = time.time()
    with open(out, "wb") as written:
        child = subprocess.Popen(words, stdout=written, stderr=subprocess.DEVNULL)
        _, _, used = os.wait4(child.pid, 0)
    took = time.time() - began
    with open(out, "rb") as written:
        line = written.readline().decode(errors="replace").strip()
    return used.ru_utime + used.ru_stime, took, used.ru_maxrss / 1024, line


def text(folder, *words):
    """A text made by texts.py, by its path."""
    path = os.path.join(folder, "-".join(words) + ".ttl")
    with open(path, "wb") as out:
        subprocess.run([sys.executable, os.path.join(HERE, "texts.py"), *words], stdout=out, check=True)
    return path


def beside_serdi(cpu, path):
    """The processor seconds of serdi, and how many times as many this is. It is quadratic in prefixes."""
    if not shutil.which("serdi"):
        return " | "
    theirs = run(["serdi", "-q", path], os.devnull)[0]
    return f"{theirs:.2f} | {cpu / theirs:.2f}" if theirs > 0.05 else f"{theirs:.2f} | "


def loads(folder, empty, out, counts):
    print("| text | MB | processor s | s | peak MB | serdi processor s | ratio |")
    print("|---|---|---|---|---|---|---|")
    kinds = [("triples", count) for count in counts]
    kinds += [(kind, max(1, counts[-1] // 4)) for kind in ("collection", "objects", "prefixes")]
    for kind, count in kinds:
        path = text(folder, kind, str(count))
        cpu, took, peak, line = run([PROGRAM, empty, path], out)
        other = beside_serdi(cpu, path) if kind != "prefixes" else " | "
        size = os.path.getsize(path) / 1e6
        print(f"| {kind} {count} | {size:.1f} | {cpu:.2f} | {took:.2f} | {peak:.0f} | {other} |", flush=True)
        if not line.startswith("report"):
            print(f"  {line}")
        os.remove(path)


def hostile(folder, empty, out):
    print("| text | processor s | peak MB | answer |")
    print("|---|---|---|---|")
    for name in ("rounds", "quotes", "dots", "hashes", "squares", "letters"):
        path = text(folder, "hostile", name, "100000000")
        cpu, _, peak, line = run([PROGRAM, empty, path], out)
        print(f"| {name} | {cpu:.2f} | {peak:.0f} | `{line}` |", flush=True)
        os.remove(path)


def shared(folder, empty, out):
    print("| text | MB | processor s | peak MB |")
    print("|---|---|---|---|")
    kinds = [("shared", name, size, size) for name in ("subject", "verb") for size in ("65536", "131072")]
    kinds += [("shared", name, size, "65536") for name in ("namespace", "base") for size in ("1024", "4096")]
    kinds += [("tags", str(count)) for count in (100000, 1000000)]
    for words in kinds:
        path = text(folder, *words)
        cpu, _, peak, line = run([PROGRAM, empty, path], out)
        size = os.path.getsize(path) / 1e6
        print(f"| {' '.join(words)} | {size:.1f} | {cpu:.2f} | {peak:.0f} |", flush=True)
        if not line.startswith("report"):
            print(f"  {line}")
        os.remove(path)


# By name: the kind of the data text, how many lines, and a line by its number.
SCRIPTS = {
    "new terms": ("triples", 100_000, "insert <http://e/{0}> <http://e/p> <http://e/o{0}> ."),
    "labels": ("labels", 100_000, "insert _:d-b{0} <http://e/q> _:d-b{0} ."),
    "blank lines": ("triples", 1_000_000, ""),
}


def scripts(folder, empty, out):
    print("| script | lines | load, processor s | script, processor s | peak MB | changed |")
    print("|---" * 6 + "|")
    lines = os.path.join(folder, "lines")
    for name, (kind, count, line) in SCRIPTS.items():
        path = text(folder, kind, "1000000")
        with open(lines, "w", encoding="utf-8") as written:
            written.writelines(line.format(at) + "\n" for at in range(count))
        before = run([PROGRAM, empty, path], out)[0]
        behind, _, peak, _ = run([PROGRAM, empty, path, lines], out)
        with open(out, encoding="utf-8") as answers:
            changed = sum(answer.startswith("ok changed ") for answer in answers)
        took = f"{before:.2f} | {behind - before:.2f}"
        print(f"| {name} | {count} | {took} | {peak:.0f} | {changed} |", flush=True)
        os.remove(path)


def main():
    with tempfile.TemporaryDirectory() as folder:
        empty = os.path.join(folder, "empty.ttl")
        open(empty, "wb").close()
        out = os.path.join(folder, "out")
        if sys.argv[1:] == ["hostile"]:
            hostile(folder, empty, out)
        elif sys.argv[1:] == ["shared"]:
            shared(folder, empty, out)
        elif sys.argv[1:] == ["script"]:
            scripts(folder, empty, out)
        else:
            counts = [int(word) for word in sys.argv[1:]]
            loads(folder, empty, out, counts or [10000, 100000, 1000000, 4000000])


if __name__ == "__main__":
    main()
