#!/usr/bin/env python3
"""Measures whole reports: the shapes of orders.ttl over the data that orders.py makes, or those of people.ttl
over that of people.py, in seconds and peak memory, beside Apache Jena's `shacl validate` where it is
installed, whose results are counted and compared. Run it at the top of the repository, on a quiet machine.

    bench/validate.py [orders|people] [COUNT ..]
                        data of about so many triples (10000, 100000 and 1000000 where no count is given)
    bench/validate.py --program WORD .. -- [orders|people] [COUNT ..]
                        the same by another program, which takes SHAPES and DATA behind these words

Jena is the command `shacl` of its own distribution, or what Debian's package libapache-jena-java holds.
Seconds are those of the whole run, with the start of the program and of Java.
"""
import glob
import os
import re
import shutil
import subprocess
import sys
import tempfile
import time
import zipfile

import orders
import people
from built import PROGRAM

HERE = os.path.dirname(os.path.abspath(__file__))
KINDS = {"orders": orders, "people": people}
JARS = "/usr/share/java"
# Libraries of Debian that pass what is logged on to each other.
LOGGERS = re.compile(r"log4j|slf4j-(jdk14|android|jcl|simple)|slf4j-provider|jul-to|jcl-over|osgi")
XERCES = "org/apache/jena/ext/xerces/"


def run(words, out):
    """Runs a command, and gives its seconds, processor seconds and peak memory in MB."""
    began = time.time()
    with open(out, "wb") as written:
        child = subprocess.Popen(words, stdout=written, stderr=subprocess.DEVNULL)
        _, _, used = os.wait4(child.pid, 0)
    return time.time() - began, used.ru_utime + used.ru_stime, used.ru_maxrss / 1024


def debian_jena(folder):
    """The words that run Debian's Jena. It looks for its messages in a folder that its package has not."""
    with zipfile.ZipFile(os.path.join(JARS, "jena-core.jar")) as jar:
        for name in jar.namelist():
            if name.startswith(XERCES) and name.endswith(".properties"):
                path = os.path.join(folder, "xerces", name.removeprefix(XERCES))
                os.makedirs(os.path.dirname(path), exist_ok=True)
                with open(path, "wb") as out:
                    out.write(jar.read(name))
    jars = [jar for jar in sorted(glob.glob(os.path.join(JARS, "*.jar"))) if not LOGGERS.search(jar)]
    return ["java", "-cp", ":".join([folder, *jars]), "shacl.shacl"]


def jena(folder):
    """The words that run Jena's command, or none where it is not installed."""
    if shutil.which("shacl"):
        return ["shacl"]
    if shutil.which("java") and os.path.exists(os.path.join(JARS, "jena-shacl.jar")):
        return debian_jena(folder)
    return []


def our_results(out):
    """How many results the head of a report tells."""
    with open(out, encoding="utf-8") as lines:
        for line in lines:
            if line.startswith("report "):
                return int(line.split("results=")[1])
    return None


def their_results(out):
    """How many results a report of Jena has: each begins with its focus node."""
    with open(out, encoding="utf-8", errors="replace") as lines:
        return sum(line.startswith("Node=") for line in lines)


def measured(used):
    seconds, processor, peak = used
    return f"{seconds:.2f} | {processor:.2f} | {peak:.0f}"


def main():
    words = sys.argv[1:]
    program = [PROGRAM]
    if words[:1] == ["--program"]:
        end = words.index("--")
        program, words = words[1:end], words[end + 1 :]
    kind = words.pop(0) if words and words[0] in KINDS else "orders"
    shapes = os.path.join(HERE, kind + ".ttl")
    with tempfile.TemporaryDirectory() as folder:
        data = os.path.join(folder, "data.ttl")
        out = os.path.join(folder, "out")
        other = jena(folder)
        heads = "s | processor s | peak MB | results"
        print(f"| triples | MB | {heads} | Jena: {heads} |")
        print("|---" * 10 + "|")
        for count in [int(word) for word in words] or [10_000, 100_000, 1_000_000]:
            with open(data, "w", encoding="utf-8") as written:
                written.writelines(KINDS[kind].text(count))
            ours = measured(run([*program, shapes, data], out))
            row = f"{count} | {os.path.getsize(data) / 1e6:.1f} | {ours} | {our_results(out)}"
            if other:
                asked = [*other, "validate", "--text", "--shapes", shapes, "--data", data]
                row += f" | {measured(run(asked, out))} | {their_results(out)}"
            else:
                row += " | | | |"
            print(f"| {row} |", flush=True)


if __name__ == "__main__":
    main()
