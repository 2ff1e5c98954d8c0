"""What edits leave behind: nothing. Each edit changes what is read for a pair, or brings a pair with a result
and takes it away again, each time at another node. None brings a term that is new. So the memory after
many edits is that after few. A body that keeps a reader under a key that it reads no longer, or the place of
a node whose results are gone, takes more with each edit."""

import re
import subprocess
import threading
from pathlib import Path

from uses.running import PATIENCE, folder_of, said, told

NODES, WAYS = 25_000, 10
FEW, MANY = 250, NODES
# So much more the many may take: a part of the memory after few, and some for what the system rounds.
PART, SOME = 0.02, 300
SHAPES = f"""@prefix sh: <http://www.w3.org/ns/shacl#> . @prefix e: <http://e/> .
e:Way sh:targetNode e:a ; sh:maxCount 0 ;
    sh:path ( e:p [ sh:alternativePath ( {' '.join(f'e:q{at}' for at in range(WAYS))} ) ] ) .
e:Due sh:targetSubjectsOf e:t ; sh:path e:u ; sh:minCount 1 .
"""
DATA = '@prefix e: <http://e/> .\n' + ''.join(f'e:b{at} e:z e:z .\n' for at in range(NODES))
# The edits at a node, and how many pairs each evaluates. Who is no longer a focus node is not evaluated.
EDITS = (('insert e:a e:p e:b{} .', 1), ('remove e:a e:p e:b{} .', 1),
         ('insert e:b{} e:t e:z .', 1), ('remove e:b{} e:t e:z .', 0))


def script(nodes):
    return ''.join(f'{line.format(at)}\n' for at in range(nodes) for line, _ in EDITS) + 'count\n'


def due(nodes):
    answers = ''.join(f'ok changed evaluated {count}\n' for _, count in EDITS)
    return f'report conforms=true results=0\n{answers * nodes}count triples={NODES} pairs=1 results=0\n'


def peak(program, nodes):
    """What a run with so many edits puts, and the kilobytes that it has taken at most, before it ends."""
    files = {'shapes': SHAPES.encode(), 'data': DATA.encode()}
    with folder_of(files) as folder:
        run = subprocess.Popen([program, *files, '/dev/stdin'], cwd=folder, stdin=subprocess.PIPE,
                               stdout=subprocess.PIPE)
        clock = threading.Timer(PATIENCE, run.kill)
        writer = threading.Thread(target=write, args=(run.stdin, script(nodes).encode()))
        clock.start(), writer.start()
        put = run.stdout.read(len(due(nodes))).decode()
        size = re.search(r'VmHWM:\s+(\d+) kB', Path(f'/proc/{run.pid}/status').read_text())
        writer.join(), run.stdin.close(), run.wait(), clock.cancel()
        return put, int(size[1]) if size else 0


def write(pipe, text):
    pipe.write(text)
    pipe.flush()


def tried(program):
    peaks = []
    for nodes in (FEW, MANY):
        put, size = peak(program, nodes)
        peaks.append(size)
        yield put == due(nodes) or told(f'{nodes * len(EDITS)} edits', 'are answered otherwise')
    few, many = peaks
    name = f'{MANY * len(EDITS)} edits'
    yield said(name, many <= few * (1 + PART) + SOME, 'take', many, 'kilobytes, and fewer', few)
