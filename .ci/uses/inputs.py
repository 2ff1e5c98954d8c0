"""Inputs that fail, that come and go while the program runs, or that end early. Where one fails, the run ends
with 4, and what it put is what is due up to there: nothing before the data is read, then the report, then the
answers to the lines whose line feed was taken. What only ends early is a text, and has its answer.

Texts come through named pipes, so that what happens on the way happens at a known place: the shapes are read
before the data is opened, the data before the script, and a line is answered before the next is read.
"""

import errno
import fcntl
import os
import pty
import resource
import select
import termios
import time
import tty
from contextlib import contextmanager, suppress
from pathlib import Path

from uses import texts
from uses.running import begun, ended, folder_of, is_whole, rest, said

# So long the program may leave a pipe alone, and keep an answer back, by the clock.
PATIENCE = 20

SHAPES = texts.LITERALS
DATA = texts.PREFIXES + 'e:a e:p e:b .\n'
REPORT = texts.report('result NodeKind Violation <http://e/S> <http://e/a> <http://e/p> <http://e/b>\n')
COUNT = 'count triples=1 pairs=1 results=1\n'
THREE = ('shapes', 'data', 'script')
TEXTS = texts.files(SHAPES, DATA, 'count\n')

# Names that lead to no text.
NAMES = {
    'a folder': '.', 'no file': 'none', 'a file in a file': 'data/none', 'a link to itself': 'loop',
    'a name that is too long': 'x' * 5000, 'memory that cannot be read': '/proc/self/mem',
}
# What is put where the text in each place fails; a line loads the last of them.
PLACES = {'shapes': '', 'data': '', 'script': REPORT, 'other shapes': REPORT + COUNT}


# ---- names

def named(program, place, why, name):
    """A run with such a name in one place."""
    words = [name if word == place else word for word in THREE]
    script = f'count\nshapes "{name}"\ncount\n' if place == 'other shapes' else 'count\n'
    with folder_of(texts.files(SHAPES, DATA, script)) as folder:
        os.symlink('loop', os.path.join(folder, 'loop'))
        found = ended(program, words, folder)
    return is_whole(f'{why} as {place}', found, PLACES[place].encode(), 4)


def names_fail(program):
    for place in PLACES:
        for why, name in NAMES.items():
            yield named(program, place, why, name)


# ---- pipes with names

@contextmanager
def piped(program, files, pipe):
    """A run with a named pipe in the place of one file: the folder, the run, and the writing end of the pipe,
    as soon as the run has opened it."""
    with folder_of({name: text for name, text in files.items() if name != pipe}) as folder:
        os.mkfifo(os.path.join(folder, pipe))
        with begun(program, THREE, folder) as run:
            with open(writing_end(run, os.path.join(folder, pipe)), 'wb', 0) as writer:
                yield Path(folder), run, writer


def writing_end(run, path):
    """The writing end of a pipe that the run opens to read."""
    end = time.monotonic() + PATIENCE
    while time.monotonic() < end and run.poll() is None:
        try:
            writer = os.open(path, os.O_WRONLY | os.O_NONBLOCK)
            os.set_blocking(writer, True)
            return writer
        except OSError as error:
            if error.errno != errno.ENXIO:
                raise
        time.sleep(0.001)
    # Nobody reads: what is written goes nowhere, and the run has ended otherwise than is due.
    return os.open(os.devnull, os.O_WRONLY)


def answered(run, lines):
    """The next lines that a run puts, so many; or fewer, where no more come."""
    put = b''
    while put.count(b'\n') < lines and select.select([run.stdout], [], [], PATIENCE)[0]:
        piece = os.read(run.stdout.fileno(), 65536)
        if not piece:
            break
        put += piece
    return put


def waited(run, is_so):
    """Waits until something is so, and tells whether it came to that while the run went on."""
    end = time.monotonic() + PATIENCE
    while run.poll() is None and time.monotonic() < end:
        if is_so():
            return True
        time.sleep(0.0001)
    return False


def send(writer, text):
    """Writes into a pipe, where there is a reader."""
    with suppress(BrokenPipeError):
        writer.write(text)


def ending(run, writer, text=b'', before=b''):
    """How a run ends once this text was the last."""
    send(writer, text)
    writer.close()
    return rest(run, before)


def files_go(program):
    """A file is gone by the time at which it is to be opened, or another one, or goes once it is."""
    report, whole = REPORT.encode(), (REPORT + COUNT).encode()
    with piped(program, TEXTS, 'shapes') as (folder, run, writer):
        (folder / 'data').unlink()
        found = ending(run, writer, TEXTS['shapes'])
        yield is_whole('data that goes while the shapes are read', found, b'', 4)
    with piped(program, TEXTS, 'data') as (folder, run, writer):
        (folder / 'script').unlink()
        found = ending(run, writer, TEXTS['data'])
        yield is_whole('a script that goes while the data is read', found, report, 4)
    with piped(program, {**TEXTS, 'data': b'no data'}, 'shapes') as (folder, run, writer):
        (folder / 'data').write_bytes(TEXTS['data'])
        found = ending(run, writer, TEXTS['shapes'])
        yield is_whole('data that comes while the shapes are read', found, whole, 1)
    with piped(program, TEXTS, 'data') as (folder, run, writer):
        (folder / 'data').unlink()
        found = ending(run, writer, TEXTS['data'])
        yield is_whole('data whose name goes while it is read', found, whole, 1)


def loaded_shapes_go(program):
    """A line loads other shapes twice. In between the answer is read, and the file goes."""
    with piped(program, {**TEXTS, 'more': TEXTS['shapes']}, 'script') as (folder, run, writer):
        send(writer, b'shapes "more"\n')
        put = answered(run, 3)
        (folder / 'more').unlink()
        found = ending(run, writer, b'shapes "more"\ncount\n', before=put)
        yield is_whole('other shapes that go', found, (REPORT + 'ok shapes evaluated 0\n').encode(), 4)


# Texts that end early: the place, what comes, what is put, and the status.
EARLY = (
    ('shapes', '', texts.report() + 'count triples=1 pairs=0 results=0\n', 0),
    ('data', '', texts.report() + 'count triples=0 pairs=1 results=0\n', 0),
    ('script', '', REPORT, 1),
    ('shapes', SHAPES[:-4], f'fault shapes: 2 Syntax at {len(texts.PREFIXES)}\n', 3),
    ('data', DATA[:-4], f'fault data: 2 Syntax at {len(texts.PREFIXES)}\n', 3),
    ('script', 'count\nremove e:a e:p', REPORT + COUNT + 'refused line 2: 52 LineSyntax\n', 7),
    ('script', 'count\ncount', REPORT + COUNT + COUNT, 1),
)


def texts_end_early(program):
    for place, text, due, status in EARLY:
        with piped(program, TEXTS, place) as (_, run, writer):
            found = ending(run, writer, text.encode())
            yield is_whole(f'an early end of the {place} behind {text[-9:]!r}', found, due.encode(), status)


def closed_input(program):
    """Standard input is closed: `/dev/stdin` has no bytes then, and is no file that was opened before."""
    for place, text, due, status in EARLY:
        if not text:
            words = ['/dev/stdin' if word == place else word for word in THREE]
            with folder_of(TEXTS) as folder:
                found = ended(program, words, folder, stdin=None, preexec_fn=lambda: os.close(0))
            yield is_whole(f'a standard input that is closed as {place}', found, due.encode(), status)


def is_taken(writer):
    """Whether all that was written into a pipe is read."""
    return not any(fcntl.ioctl(writer, termios.FIONREAD, bytes(4)))


def texts_come_slowly(program):
    """Each text comes byte by byte, each when the one before it is read; some characters have two."""
    files = texts.files(SHAPES.replace('e:S', 'e:ß'), DATA, 'insert e:a e:p "ä" .\n')
    due = (REPORT.replace('/S>', '/ß>') + 'ok changed evaluated 1\n').encode()
    for place in THREE:
        with piped(program, files, place) as (_, run, writer):
            for byte in files[place]:
                send(writer, bytes([byte]))
                if not waited(run, lambda: is_taken(writer)):
                    break
            yield is_whole(f'the {place} byte by byte', ending(run, writer), due, 1)


# ---- a terminal

def is_asleep(run):
    """Whether a run waits for something."""
    return Path(f'/proc/{run.pid}/stat').read_text(encoding='utf-8').rsplit(')', 1)[1].split()[0] == 'S'


def terminal_is_hung_up(program):
    """The script is a terminal, which is hung up in the middle of a line. The run waits for the rest of that
    line then, and that read fails."""
    ours, theirs = pty.openpty()
    tty.setraw(theirs)
    with folder_of(TEXTS) as folder, open(ours, 'wb', 0) as typed:
        with begun(program, ('shapes', 'data', os.ttyname(theirs)), folder) as run:
            put = answered(run, 2)
            typed.write(b'count\ncou')
            put += answered(run, 1)
            waited(run, lambda: is_asleep(run))
            os.close(theirs)
            typed.close()
            found = rest(run, put)
    yield is_whole('a terminal that is hung up', found, (REPORT + COUNT).encode(), 4)


# ---- descriptors

def holding(count):
    """What the child does first: it may hold so many descriptors."""
    def begin():
        resource.setrlimit(resource.RLIMIT_NOFILE, (count, count))
    return begin


def descriptors_run_out(program):
    """With more and more descriptors: none of three texts can be opened, or some, or all. One with which the
    program cannot be loaded is none: it does not tell its usage there."""
    due, statuses = (REPORT + COUNT).encode(), []
    with folder_of(TEXTS) as folder:
        for count in range(3, 12):
            if ended(program, (), folder, preexec_fn=holding(count)).put != texts.USAGE:
                continue
            found = ended(program, THREE, folder, preexec_fn=holding(count))
            statuses.append(found.status)
            fronts = {4: (b'', REPORT.encode()), 1: (due,)}.get(found.status, ())
            yield said(f'{count} descriptors', found.put in fronts, 'it puts', found.put, 'and', found.status)
    is_in_turn = statuses == sorted(statuses, reverse=True) and set(statuses) == {4, 1}
    yield said('rising numbers of descriptors', is_in_turn, 'end with', statuses)


def tried(program):
    for part in (names_fail, files_go, loaded_shapes_go, texts_end_early, closed_input, texts_come_slowly,
                 terminal_is_hung_up, descriptors_run_out):
        yield from part(program)
