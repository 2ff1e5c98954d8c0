"""What stands around a run and is no input of it: the environment, standard input and the streams that are
closed, its own name, and words that are no text."""

import os

from uses import texts
from uses.running import ended, folder_of, is_whole, said

# Of each of these some program or library makes something. By MALLOC_PERTURB_ the C library fills memory.
ODD = {
    'PATH': '/none', 'HOME': '/none', 'TMPDIR': '/none', 'LANG': 'xx_XX.latin1', 'LC_ALL': 'tr_TR',
    'TZ': '../none', 'RUST_BACKTRACE': 'full', 'RUST_LOG': 'trace', 'COLUMNS': '1', 'TERM': '', 'PWD': '/',
    'SHACL_KEEP': '/none', 'MALLOC_PERTURB_': '165', 'a\udcff': '\udcff',
}
USE = texts.scripted(3)


def closed(*streams):
    """What the child does first: it has these descriptors no more."""
    def begin():
        for stream in streams:
            os.close(stream)
    return begin


# What the output and the status do not depend on.
SAME = {
    'without an environment': {'env': {}},
    'in an odd environment': {'env': ODD},
    'without standard input': {'preexec_fn': closed(0)},
    'without standard error': {'preexec_fn': closed(2)},
    'without both': {'preexec_fn': closed(0, 2)},
}
# Where there is no output that takes bytes, nothing is written elsewhere: a file that the program opens may
# have its number then.
NO_OUTPUT = {
    'without standard output': {'stdout': None, 'preexec_fn': closed(1)},
    'without any stream': {'stdout': None, 'preexec_fn': closed(0, 1, 2)},
}


def files_of(folder):
    return {entry.name: open(entry.path, 'rb').read() for entry in os.scandir(folder)}


def streams_and_environments(program):
    with folder_of(USE.files) as folder:
        for name, how in SAME.items():
            yield is_whole(f'a run {name}', ended(program, USE.words, folder, **how), USE.due, USE.status)
        for name, how in NO_OUTPUT.items():
            yield is_whole(f'a run {name}', ended(program, USE.words, folder, **how), b'', 5)
        with open(os.path.join(folder, 'data'), 'rb') as read_only:
            found = ended(program, USE.words, folder, stdout=read_only)
        yield is_whole('a run whose output is open to be read', found, b'', 5)
        yield said('the files of these runs', files_of(folder) == USE.files, 'are not as they were')


def names_and_words(program):
    """Words that are no UTF-8 leave nothing to be said: they are no words."""
    with folder_of(USE.files) as folder:
        found = ended('', USE.words, folder, executable=program)
        yield is_whole('a run whose program has no name', found, USE.due, USE.status)
        for at in range(5):
            words = [b'--base', b'http://e/', b'shapes', b'data', b'script']
            words[at] += b'\xff'
            found = ended(program, words, folder)
            yield is_whole(f'a run whose word {at + 1} is no UTF-8', found, b'', 2)


def tried(program):
    yield from streams_and_environments(program)
    yield from names_and_words(program)
