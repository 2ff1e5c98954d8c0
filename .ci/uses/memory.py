"""Too little memory: a run ends with 6 then, and what it put is a front of what is due; with a little more it
is answered. The limits are found upwards, so that they belong to no machine: from the least under which the
program tells its usage, by even steps, up to one under which it answers, and some above it, where it has to
answer too. Under less than the least the system cannot load the program, which is no run of it."""

import resource
import subprocess

from uses import texts
from uses.running import Ended, Use, ended, folder_of, said, told

# The address space of the child; and its data alone, which leaves the code and the stack out.
KINDS = {'address space': resource.RLIMIT_AS, 'data': resource.RLIMIT_DATA}
STEP, STEPS, MOST = 1 << 16, 40, 1 << 32


def inserted(count):
    """So many edits, each of a node that is no focus node, and with a term that is new and long."""
    script = ''.join(f'insert e:n{at} e:p "{at:0200}" .\n' for at in range(count))
    due = texts.report() + 'ok changed evaluated 0\n' * count
    return Use(f'{count} edits', due.encode(), 0, texts.files(texts.LITERALS, texts.PREFIXES, script),
               ('shapes', 'data', 'script'))


def least(is_enough, low):
    """The least limit, by steps, that is enough, above one that is not; or none, where the most is not."""
    width = STEP
    while not is_enough(low + width):
        low, width = low + width, 2 * width
        if low > MOST:
            return None
    high = low + width
    while high - low > STEP:
        middle = low + (high - low) // STEP // 2 * STEP
        low, high = (low, middle) if is_enough(middle) else (middle, high)
    return high


def steps(first, last):
    """Limits from one to another, and some behind it."""
    width = max(STEP, (last - first) // STEPS)
    return [*range(first, last, width), *(last + (last - first) * more for more in (1, 2, 4, 8))]


def under(program, words, folder, kind, size):
    """How a run under a limit ends. The system may not even begin it."""
    try:
        return ended(program, words, folder, preexec_fn=lambda: resource.setrlimit(kind, (size, size)))
    except (OSError, subprocess.SubprocessError):
        return Ended(b'', 'none')


def runs_under(program, use, folder, kind):
    """How runs end, by their rising limits, the first of which is a step above the least."""
    found = {}

    def is_answered(size):
        if size not in found:
            found[size] = under(program, use.words, folder, kind, size)
        return found[size].status == use.status

    first = least(lambda size: under(program, (), folder, kind, size)[:2] == (texts.USAGE, 2), 0)
    last = first and least(is_answered, first)
    for size in steps(first + STEP, last) if last else ():
        is_answered(size)
    return sorted(found.items())


def is_as_due(name, use, found):
    """Whether a run wants memory behind a front of what is due, or answers."""
    is_one = use.due.startswith(found.put) if found.status == 6 else found[:2] == (use.due, use.status)
    put = f'{len(found.put)} bytes of {len(use.due)}'
    return is_one or told(name, 'puts', put, 'and ends with', found.status)


def limited(program, use, folder, name, kind):
    found = runs_under(program, use, folder, kind)
    answers = [run.status == use.status for _, run in found]
    yield from (is_as_due(f'{use.name} in {size} bytes of {name}', use, run) for size, run in found)
    name = f'{use.name} by limits of {name}'
    yield said(name, answers == sorted(answers), 'is not answered under each above one that is enough')
    yield said(name, set(answers) == {False, True}, 'ends in one way alone, under', len(answers))
    if use.status == 0:
        # No answer waits for a later line, so the first stand there when memory is wanting.
        begun = [run for _, run in found if run.status == 6 and len(run.put) > len(texts.report())]
        yield said(name, bool(begun), 'puts no answer before memory is wanting')


def tried(program):
    for use in (texts.large(3_000), inserted(10_000)):
        with folder_of(use.files) as folder:
            for name, kind in KINDS.items():
                yield from limited(program, use, folder, name, kind)
