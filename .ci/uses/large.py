"""One large run: some 300,000 triples with 50,000 results, without a script and with 20,000 edits. Its output
is worked out by `parcels`. That it is put whole, and within its processor time, refuses

- want of memory by size, and smaller limits in `main`: by the number of triples, of terms, of results and of
  edits, and by the bytes of a text;
- a plain list of triples in the place of the indexes: each of 46,000 pairs would go over all triples for each
  of its paths;
- a weak hash of terms: 45,000 differ in their ends alone, as many in their fronts, in their tags, in their
  datatypes and in their labels, and would stand in one place of a table;
- a change that evaluates more than it touches: by what is told, and where it is not told by the time.
"""

import math
import resource

from uses.parcels import SHAPES, Parcels
from uses.running import ended, folder_of, is_whole, said, told

PARCELS, DEPOTS, EDITS = 45_000, 1_000, 20_000
# Ten times what the two took (docs/FIGURES.md, "The program").
MOST_SECONDS = (7, 29)


class Script:
    """A script over a graph, line by line, with the answers that are due."""

    def __init__(self, graph):
        self.graph, self.lines, self.answers, self.changes = graph, [], [], []

    def ask(self, line, answer):
        self.lines.append(line + '\n')
        self.answers.append(answer)

    def change(self, line, edits):
        self.ask(line, f'ok changed evaluated {self.graph.change(edits)}\n')

    def edit(self, triple, is_in):
        """One edit. It has no effect where the triple is there, or is not, as the edit wants it."""
        if self.graph.has(triple) == is_in:
            self.ask(line_of(triple, is_in), 'ok unchanged evaluated 0\n')
        else:
            self.changes.append([(triple, is_in)])
            self.change(line_of(triple, is_in), self.changes[-1])

    def group(self, edits):
        """Edits that have an effect each, as one change."""
        self.ask('begin', 'ok begun\n')
        for triple, is_in in edits:
            self.ask(line_of(triple, is_in), 'ok queued\n')
        self.changes.append(edits)
        self.change('commit', edits)

    def back_and_again(self, times):
        """The last changes are taken back, and made again."""
        latest = self.changes[-times:]
        for edits in reversed(latest):
            self.change('undo', [(triple, not is_in) for triple, is_in in edits])
        self.look()
        for edits in latest:
            self.change('redo', edits)

    def look(self):
        self.ask('count', self.graph.counts())


def line_of(triple, is_in):
    return f'{"insert" if is_in else "remove"} {" ".join(triple)} .'


def weigh(script, count, parcels):
    """A group of so many edits: half as many parcels get another weight."""
    edits = []
    for at in range(count // 2):
        number = at * 7 % parcels
        name = f'e:parcel{number:05}'
        edits += [((name, 'e:weight', str(-number if number % 2 else number)), False),
                  ((name, 'e:weight', str(number + 1)), True)]
    script.group(edits)


def ten_edits(script, at, parcels, depots):
    """Edits that touch one pair, many, or none."""
    number, other = at * 7919 % parcels, at % depots
    parcel, depot = f'e:parcel{number:05}', f'e:depot{other:05}'
    place = 'e:nowhere' if number % 20 == 7 else f'e:depot{number % depots:05}'
    light = (parcel, 'e:weight', '-1')
    city, kind = (depot, 'e:city', f'e:city{other % 211}'), (depot, 'a', 'e:Depot' if other % 3 else 'e:Hub')
    read = city if at % 2 else kind
    for triple, is_in in (
        (light, True), (light, True), (light, False),
        ((parcel, 'e:at', place), False), ((parcel, 'e:at', depot), True),
        (read, False), (read, True),
        ((f'e:new{at:05}', 'a', 'e:Parcel'), True),
        ((f'_:d-b{at:05}', 'e:weight', '1'), True),
        ((parcel, 'e:note', f'"more"@y-{at}'), True),
    ):
        script.edit(triple, is_in)


def scripted(parcels, depots, edits):
    """The data, the script, the report that is due, and the answers."""
    graph = Parcels(parcels, depots)
    script = Script(graph)
    data, report = graph.text(), graph.report()
    weigh(script, edits // 2, parcels)
    script.look()
    for at in range(edits // 20):
        ten_edits(script, at, parcels, depots)
    script.back_and_again(100)
    script.look()
    script.ask('report', graph.report())
    return data, ''.join(script.lines), report, ''.join(script.answers)


def known(output):
    """What is known of an output, to be read where it is otherwise."""
    lines = output.decode(errors='replace').split('\n')
    evaluated = sum(int(line.split()[-1]) for line in lines if line.startswith('ok changed '))
    reports = [line for line in lines if line.startswith('report ')]
    counts = [line for line in lines if line.startswith('count ')]
    return f'{reports}, {evaluated} evaluated, {counts[-1:]}'


def within(seconds):
    """What the child does first: it is ended where it takes more processor time."""
    def begin():
        resource.setrlimit(resource.RLIMIT_CPU, (math.ceil(seconds), math.ceil(seconds) + 1))
    return begin


def timed(program, name, words, folder, due, seconds):
    """One of the two, with its output and its processor seconds."""
    found = ended(program, words, folder, preexec_fn=within(seconds))
    yield is_whole(name, found, due, 1) or told(name, 'has', known(found.put), 'in place of', known(due))
    took = round(found.seconds, 1)
    yield said(name, found.seconds <= seconds, 'takes', took, 'processor seconds, of', seconds, 'at most')


def tried(program, parcels=PARCELS, depots=DEPOTS, edits=EDITS, seconds=MOST_SECONDS):
    """The run without a script, and with it."""
    data, script, report, answers = scripted(parcels, depots, edits)
    files = {'shapes': SHAPES.encode(), 'data': data.encode(), 'script': script.encode()}
    with folder_of(files) as folder:
        yield from timed(program, 'the large run', ('shapes', 'data'), folder, report.encode(), seconds[0])
        due = (report + answers).encode()
        yield from timed(program, 'the large run with edits', tuple(files), folder, due, seconds[1])
