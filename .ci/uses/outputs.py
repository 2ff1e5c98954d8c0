"""Outputs that fail: a full device, a file that may not grow, a full pipe, and a pipe that nobody reads. Each
such run ends with 5, and what it put is a front of what is due.

That is so of a pipe without a reader too, however the caller has set SIGPIPE: the program ignores it, so the
write fails and no signal ends the run. Otherwise the run would have no status that docs/REFERENCE.md has.
"""

import os
import resource
import signal

from uses import texts
from uses.running import Ended, begun, ended, folder_of, is_front, is_whole, rest

# What the program gathers before it puts it. The sizes around it matter most where they are this one.
PIECE = 8192
# More than a pipe holds.
RESULTS = 400


def grown_to(size):
    """What the child does first: no file of it may grow past this size, and that is no signal."""
    def begin():
        signal.signal(signal.SIGXFSZ, signal.SIG_IGN)
        resource.setrlimit(resource.RLIMIT_FSIZE, (size, size))
    return begin


def into_device(program, use, folder):
    with open('/dev/full', 'wb') as full:
        found = ended(program, use.words, folder, stdout=full)
    return is_front(f'{use.name} into a full device', found, use.due, 5)


def into_file(program, use, folder, size):
    """A file takes what it may hold, whole pieces or not; and where that is all, nothing fails."""
    path = os.path.join(folder, 'output')
    with open(path, 'wb') as output:
        found = ended(program, use.words, folder, stdout=output, preexec_fn=grown_to(size))
    with open(path, 'rb') as output:
        found = Ended(output.read(), found.status)
    name = f'{use.name} into a file of {size} bytes at most'
    return is_whole(name, found, use.due[:size], use.status if size >= len(use.due) else 5)


def into_files(program, use, folder):
    due = len(use.due)
    for size in sorted({0, 1, PIECE - 1, PIECE, PIECE + 1, due // 2, due - 2, due - 1, due}):
        if size <= due:
            yield into_file(program, use, folder, size)


def filled(writer):
    """Writes into a pipe that does not block until it takes no more."""
    count = 0
    for size in (4096, 1):
        try:
            while True:
                count += os.write(writer, b'.' * size)
        except BlockingIOError:
            pass
    return count


def into_full_pipe(program, use, folder):
    """A pipe that does not block, and takes nothing more."""
    found = into_pipe(program, use, folder, True)
    return is_whole(f'{use.name} into a full pipe', found, b'', 5)


def into_unread_pipe(program, use, folder):
    """A pipe that does not block, and that nobody reads: it is full before all is put."""
    found = into_pipe(program, use, folder, False)
    return is_front(f'{use.name} into a pipe that is not read', found, use.due, 5)


def into_pipe(program, use, folder, is_full):
    reader, writer = os.pipe()
    os.set_blocking(writer, False)
    before = filled(writer) if is_full else 0
    status = ended(program, use.words, folder, stdout=writer).status
    os.close(writer)
    with open(reader, 'rb') as piped:
        return Ended(piped.read()[before:], status)


def into_no_reader(program, use, folder, is_restored):
    """A pipe whose reader is gone. The child has SIGPIPE at its default, or ignored as Python has it."""
    reader, writer = os.pipe()
    os.close(reader)
    found = ended(program, use.words, folder, stdout=writer, restore_signals=is_restored)
    os.close(writer)
    how = 'with' if is_restored else 'without'
    return is_whole(f'{use.name} into a pipe without a reader, {how} SIGPIPE', found, b'', 5)


def to_a_reader_who_leaves(program, use, folder):
    """The reader goes when the first bytes are there, as `head` does."""
    with begun(program, use.words, folder) as run:
        put = run.stdout.read(100)
        run.stdout.close()
        found = rest(run, put)
    return is_front(f'{use.name} to a reader who leaves', found, use.due, 5)


def into_each(program, use):
    """A use into each output that even little fills."""
    with folder_of(use.files) as folder:
        yield into_device(program, use, folder)
        yield from into_files(program, use, folder)
        yield into_full_pipe(program, use, folder)
        yield from (into_no_reader(program, use, folder, is_restored) for is_restored in (True, False))


def drilled(drill):
    """The same of the drill, behind its summary and behind its usage."""
    for use in texts.drills():
        yield from into_each(drill, use)


def tried(program):
    """Each output with each use; those that a short use does not fill with a large one alone."""
    large = texts.large(RESULTS)
    for use in (*texts.short(), large, texts.large_in_turtle(200), texts.scripted(40)):
        yield from into_each(program, use)
    with folder_of(large.files) as folder:
        yield into_unread_pipe(program, large, folder)
        yield to_a_reader_who_leaves(program, large, folder)
