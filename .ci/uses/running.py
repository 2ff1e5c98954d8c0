"""How the program is run over a use, and what is printed where it ends otherwise than is due."""

import resource
import subprocess
import tempfile
from contextlib import contextmanager
from pathlib import Path
from typing import NamedTuple

# So long a run may take by the clock: no use needs it, and one that waits forever ends.
PATIENCE = 60


class Use(NamedTuple):
    """Words and files by their names, and what is due: the output and the status."""
    name: str
    due: bytes
    status: int
    files: dict
    words: tuple = ('shapes', 'data')


class Ended(NamedTuple):
    """What a run put, its status, which is negative where a signal ended it, and its processor seconds."""
    put: bytes
    status: int
    seconds: float = 0.0


def folder_of(files):
    """A folder of its own for these files."""
    folder = tempfile.TemporaryDirectory()
    for name, text in files.items():
        Path(folder.name, name).write_bytes(text)
    return folder


def processor_seconds():
    used = resource.getrusage(resource.RUSAGE_CHILDREN)
    return used.ru_utime + used.ru_stime


def ended(program, words, folder, **how):
    """How a run ends. What it puts is only seen where its output is no other one."""
    how = {'stdin': subprocess.DEVNULL, 'stdout': subprocess.PIPE, 'stderr': subprocess.DEVNULL, **how}
    began = processor_seconds()
    try:
        ran = subprocess.run([program, *words], cwd=folder, timeout=PATIENCE, check=False, **how)
    except subprocess.TimeoutExpired as late:
        return Ended(late.stdout or b'', 'none', processor_seconds() - began)
    return Ended(ran.stdout or b'', ran.returncode, processor_seconds() - began)


@contextmanager
def begun(program, words, folder):
    """A run that is under way."""
    pipes = {'stdin': subprocess.DEVNULL, 'stdout': subprocess.PIPE, 'stderr': subprocess.DEVNULL}
    with subprocess.Popen([program, *words], cwd=folder, **pipes) as run:
        try:
            yield run
        finally:
            run.kill()


def rest(run, before=b''):
    """What a run puts in all, and how it ends."""
    try:
        put, _ = run.communicate(timeout=PATIENCE)
        return Ended(before + put, run.returncode)
    except subprocess.TimeoutExpired:
        run.kill()
        return Ended(before + run.communicate()[0], 'none')


def told(name, *what):
    """Says what is otherwise than is due."""
    print(f'the hostile uses: {name}:', *what)
    return False


def said(name, is_so, *what):
    """Whether something is so; says what is not."""
    return is_so or told(name, *what)


def place(put, due):
    """Where bytes begin to differ."""
    return next((at for at, pair in enumerate(zip(put, due)) if pair[0] != pair[1]), min(len(put), len(due)))


def is_whole(name, found, due, status):
    """Whether a run put all that is due, and ended with its status."""
    if found.status != status:
        told(name, 'ends with', found.status, 'in place of', status)
    if found.put != due:
        told(name, 'puts', len(found.put), 'bytes, of', len(due), 'otherwise at', place(found.put, due))
    return found[:2] == (due, status)


def is_front(name, found, due, status):
    """Whether a run put a front of what is due, which lacks something, and ended with this status."""
    is_one = len(found.put) < len(due) and due.startswith(found.put)
    if found.status != status:
        told(name, 'ends with', found.status, 'in place of', status)
    if not is_one:
        told(name, 'puts', len(found.put), 'bytes that are no front of the', len(due), 'that are due: at',
             place(found.put, due))
    return is_one and found.status == status
