"""Finds which groups a run moved pages of: from what is charged to each group after each turn of the script.

`memcgrun schedule` does not say what a turn did, except for kills. But a turn moves at most one page, and docs/SCRIPTS.md says how many turns each
command takes: a try, then one turn for a page that is dropped, or three for one that is written out; three for a page that is read in.
"""
from dataclasses import dataclass

# Looks at groups, at most. A script with more would take minutes.
MOST_LOOKS = 400_000
ACCESSES = ('read', 'write', 'fread', 'fwrite')
PARTED = ('begin', 'step', 'finish')


@dataclass
class Turn:
    """The groups with more charges than before a turn, those with fewer, whether it killed, and whether it ended the command."""

    rose: frozenset
    fell: frozenset
    kills: bool
    ends: bool


def actor_of(text):
    first = text.split()[0]
    return first if first.isdigit() or first == 'daemon' else 'control'


def is_hidden(text):
    """Whether looks after each turn of the script's own lines do not show what moves."""
    words = text.split()
    return words[0] in (*PARTED, 'go') or words[0] in ('task', 'attach') and words[-1] == '/'


def form_of(text):
    """How a command takes its turns."""
    words = text.split()
    if words[0].isdigit():
        return 'access' if words[1] in ACCESSES else 'single'
    if words[0] == 'daemon':
        return 'reclaim'
    if words[0] == 'set' and words[2] in ('memory.max', 'memory.reclaim'):
        return words[2].removeprefix('memory.')
    return 'single'


def moves_of(form, turns):
    """What a command moved: pairs of `in`, `out` or `dropped` and the groups."""
    moves, left = [], iter(turns)
    may_try = form in ('access', 'max')
    for turn in left:
        if form == 'single' or turn.ends:
            break
        if form == 'max' and may_try:
            # The limit is written.
            may_try = False
        elif turn.rose:
            next(left)
            if not next(left).fell:
                moves.append(('in', turn.rose))
        elif turn.kills:
            may_try = form == 'access'
        elif turn.fell:
            moves.append(('dropped', turn.fell))
            may_try = form == 'access'
        elif may_try:
            # The charge was refused.
            may_try = False
        else:
            # A page is chosen.
            next(left)
            fell = next(left).fell
            if fell:
                moves.append(('out', fell))
            may_try = form == 'access'
    return moves


class Moves:
    """What each entry of a script moved. Nothing is known of a script that is too long, takes lines apart itself, or has tasks in the root, which has no
    `memory.current`."""

    def __init__(self, machine, header, entries):
        self.machine, self.header, self.entries = machine, header, [entry.text for entry in entries]
        self.paths = sorted({text.split()[1] for text in self.entries if text.startswith('group ')})
        self.by_entry = None
        if not any(is_hidden(text) for text in self.entries):
            counts = self.count_turns()
            if sum(counts) * len(self.paths) <= MOST_LOOKS:
                self.by_entry = [moves_of(form_of(text), turns) for text, turns in zip(self.entries, self.turns(counts), strict=True)]

    def count_turns(self):
        """How many turns each entry takes. More steps than that are answered `idle`."""
        tried, counts = [2] * len(self.entries), [None] * len(self.entries)
        while None in counts:
            lines, at = list(self.header), []
            for text, many in zip(self.entries, tried, strict=True):
                at.append(len(lines))
                lines += [f'begin {text}'] + [f'step {actor_of(text)}'] * many + [f'finish {actor_of(text)}']
            said = self.machine.run(lines).by_line()
            for place, (first, many) in enumerate(zip(at, tried, strict=True)):
                steps = [said.get(first + 2 + step, []) for step in range(many + 1)]
                idle = sum(answers[-1:] != [] and answers[-1].endswith(' idle') for answers in steps)
                if idle:
                    counts[place] = many + 1 - idle
                else:
                    tried[place] = many * 4
        return counts

    def turns(self, counts):
        """The turns of each entry, from one run that looks at all groups after each."""
        lines, steps = list(self.header), []
        for text, many in zip(self.entries, counts, strict=True):
            lines.append(f'begin {text}')
            steps.append([])
            for _ in range(many):
                lines.append(f'step {actor_of(text)}')
                steps[-1].append(len(lines))
                lines += [f'cat {path} memory.current' for path in self.paths]
        said = self.machine.run(lines).by_line()
        charged = dict.fromkeys(self.paths, 0)
        for numbers in steps:
            turns = []
            for number in numbers:
                now = {path: self.charge(said[number + 1 + place]) for place, path in enumerate(self.paths)}
                turns.append(Turn(frozenset(path for path in self.paths if now[path] > charged[path]),
                                  frozenset(path for path in self.paths if now[path] < charged[path]),
                                  any(answer.startswith('killed ') for answer in said.get(number, [])), number == numbers[-1]))
                charged = now
            yield turns

    @staticmethod
    def charge(answers):
        """What is charged to a group, in bytes. To one that is not there, nothing is."""
        return int(answers[0]) if answers[0].isdigit() else 0

    def count(self, begin, end, path=None):
        """How many pages the entries from one place to before another read in, wrote out and dropped: of the group with this path, or of all."""
        if path:
            begin = max([begin] + [place for place in range(end) if self.entries[place] == f'group {path}'])
        counts = {'in': 0, 'out': 0, 'dropped': 0}
        for moves in self.by_entry[begin:end]:
            for what, paths in moves:
                counts[what] += path is None or path in paths
        return counts
