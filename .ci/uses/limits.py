"""The limits of the program (docs/REFERENCE.md, "Limits") that a small text reaches: what is at the limit is
answered, and one more is refused. `runs` has those of brackets, of nesting and of references. A `main` that
runs with smaller limits, or larger ones, is refused by these; `large` alone says something of the number of
triples and terms and of the bytes of a text, whose limits no small text reaches."""

from uses import texts
from uses.running import Use, ended, folder_of, is_whole

THREE = ('shapes', 'data', 'script')
GROUP, CHANGES, LINE, SHAPES, PARTS = 10_000, 100, 65_536, 100_000, 4_096


def scripted(name, script, answers, status):
    """A script over no data, for a shape that has one focus node, which has no value."""
    due = (texts.report() + answers).encode()
    return Use(name, due, status, texts.files(texts.LITERALS, texts.PREFIXES, script), THREE)


def group():
    """A group of as many edits as may be, and one more, which is no part of it."""
    edits = ''.join(f'insert e:a e:p {at} .\n' for at in range(GROUP + 1))
    answers = ('ok begun\n' + 'ok queued\n' * GROUP + f'refused line {GROUP + 2}: 44 GroupTooLong\n'
               + f'ok changed evaluated 1\ncount triples={GROUP} pairs=1 results=0\n')
    return scripted('a group at its limit', f'begin\n{edits}commit\ncount\n', answers, 7)


def changes():
    """One change more than can be taken back, and each made again."""
    edits = ''.join(f'insert e:a e:p {at} .\n' for at in range(CHANGES + 1))
    answers = ('ok changed evaluated 1\n' * (2 * CHANGES + 1)
               + f'refused line {2 * CHANGES + 2}: 46 NothingToUndo\ncount triples=1 pairs=1 results=0\n'
               + 'ok changed evaluated 1\n' * CHANGES + f'refused line {3 * CHANGES + 4}: 47 NothingToRedo\n')
    script = edits + 'undo\n' * (CHANGES + 1) + 'count\n' + 'redo\n' * (CHANGES + 1)
    return scripted('changes at their limit', script, answers, 7)


def line():
    """A line as long as may be, and one byte more."""
    front, end = 'insert e:a e:p "', '" .'
    letters = LINE - len(front + end)
    script = f'{front}{"a" * letters}{end}\n{front}{"b" * (letters + 1)}{end}\ncount\n'
    answers = 'ok changed evaluated 1\nrefused line 2: 50 LineTooLong\ncount triples=1 pairs=1 results=0\n'
    return scripted('a line at its limit', script, answers, 7)


def shapes(name, text, due, status):
    return Use(name, due.encode(), status, texts.files(texts.PREFIXES + text, texts.PREFIXES))


def shape_count(more):
    """As many shapes as may be, and some more, of which the first is told."""
    text = ''.join(f'e:s{at:06} sh:minCount 0 ; sh:path e:p .\n' for at in range(SHAPES + more))
    due = f'fault shapes: 28 TooManyShapes shape <http://e/s{SHAPES}>\n'
    if more:
        return shapes('a shape too many', text, due, 3)
    return shapes('shapes at their limit', text, texts.report(), 0)


def path_parts(more):
    """A path that has as many parts as may be: itself and its members."""
    members = ' '.join(f'e:p{at}' for at in range(PARTS - 1 + more))
    text = f'e:S sh:targetNode e:a ; sh:maxCount 0 ; sh:path [ sh:alternativePath ( {members} ) ] .\n'
    due = ('fault shapes: 29 PathTooDeep shape <http://e/S> predicate <http://www.w3.org/ns/shacl#path>'
           ' term _:t-1\n')
    if more:
        return shapes('a path with a part too many', text, due, 3)
    return shapes('a path at its limit', text, texts.report(), 0)


def tried(program):
    for use in (group(), changes(), line(), path_parts(0), path_parts(1), shape_count(0), shape_count(1)):
        with folder_of(use.files) as folder:
            yield is_whole(use.name, ended(program, use.words, folder), use.due, use.status)
