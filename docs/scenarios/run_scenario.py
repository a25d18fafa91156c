"""Carries out a scenario with `memcgrun schedule`, and prints what was seen: who was killed, and what each `show` and `expect` says."""
import math
import re
import subprocess
import tempfile
from dataclasses import dataclass
from fractions import Fraction

from expand_scenario import SCRIPT_PAGE, Expansion
from moves_by_group import Moves
from scenario_text import UNITS, Fault, task_name

LOOKED_AT = ('memory.current', 'memory.stat', 'memory.events', 'memory.events.local')
COUNTS = {'in': ('pages read in',), 'out': ('pages written to swap', 'pages written home'), 'dropped': ('pages dropped',)}
MOST_KILLS_TOLD = 20
# In the place of what groups moved, if that is not known.
UNKNOWN = '?'
COMPARED = {'=': lambda a, b: a == b, '>=': lambda a, b: a >= b, '<=': lambda a, b: a <= b}


@dataclass
class Run:
    """What a run answered: pairs of a line's number and a text; why tasks were killed, in order; why lines were refused; and the numbers of its summary."""

    answers: list
    reasons: list
    refusals: dict
    summary: dict

    def by_line(self):
        lines = {}
        for number, text in self.answers:
            lines.setdefault(number, []).append(text)
        return lines


class Machine:
    def __init__(self, program, as_linux):
        self.command = [program, 'schedule', '--lines', '--explain', '--summary', '--turns', '4294967295'] + ['--as-linux'] * as_linux
        self.runs = 0

    def run(self, lines):
        self.runs += 1
        with tempfile.NamedTemporaryFile('w', suffix='.memcg', encoding='utf-8') as script:
            script.write(''.join(f'{line}\n' for line in lines))
            script.flush()
            done = subprocess.run(self.command + [script.name], capture_output=True, text=True, check=False)
        if done.returncode:
            raise RuntimeError(f'the script was not run: {done.stderr.strip()}')
        answers = [line.partition(': ') for line in done.stdout.splitlines()]
        reasons = re.findall(r'^\S+?:[0-9]+: .*?: killed (?:group [0-9]+ )?[0-9]+: (.*)$', done.stderr, re.M)
        refusals = {int(number): why for number, why in re.findall(r'^\S+?:([0-9]+): .*?: [A-Z]+, (.*)$', done.stderr, re.M)}
        summary = {what: int(number) for what, number in re.findall('^([a-z ]+): ([0-9]+)$', done.stderr, re.M)}
        return Run([(int(number), text) for number, _, text in answers], reasons, refusals, summary)


@dataclass
class Kill:
    entry: object
    victim: int
    group: bool
    victims: list
    reason: str


class Trial:
    """The entries of an expansion, carried out."""

    def __init__(self, machine, expansion):
        self.machine, self.expansion = machine, expansion
        self.header = list(expansion.header_lines())
        self.names = {number: task_name(*name) for name, number in expansion.tasks.items()}
        self.counted = {}

    def lines_of(self, entries):
        return self.header + [entry.text for entry in entries if not entry.note]

    def kills(self, entries):
        """The kills of a run of these entries."""
        lines = [entry for entry in entries if not entry.note]
        run = self.machine.run(self.lines_of(lines))
        return self.kills_of(run, lambda number: lines[number - len(self.header) - 1], lines)

    def kills_of(self, run, entry_at, lines):
        kills, dead = [], set()
        told = [(number, text) for number, text in run.answers if text.startswith('killed ')]
        for (number, text), reason in zip(told, run.reasons, strict=True):
            entry, words = entry_at(number), text.split()
            group = words[1] == 'group'
            victim = int(words[2] if group else words[1])
            victims = [victim]
            if group:
                before = lines[:next(at for at, other in enumerate(lines) if other is entry) + 1]
                victims += [task for task in self.dead_after(before) if task not in dead and task != victim]
            dead.update(victims)
            kills.append(Kill(entry, victim, group, victims, reason))
        return kills

    def dead_after(self, entries):
        """The tasks that were killed: after the run, their `exit` is answered `killed`."""
        run = self.machine.run(self.lines_of(entries) + [f'{task} exit' for task in self.names])
        return [task for task in self.names if (f'{task} killed') in {text for number, text in run.answers if number > len(self.lines_of(entries))}]

    def counts(self, entries, end):
        """What the machine read in, wrote out and dropped up to an entry, in pages."""
        if end not in self.counted:
            summary = self.machine.run(self.lines_of(entries[:end])).summary
            self.counted[end] = {what: sum(summary[name] for name in names) for what, names in COUNTS.items()}
        return self.counted[end]


def least_cut(trial):
    """The least length for which the condition of the open `until` holds, and whether one does."""
    until, entries = trial.expansion.until, [entry for entry in trial.expansion.entries if not entry.note]
    start = len(entries) - until.length
    if until.condition[0] == 'killed':
        for kill in trial.kills(entries):
            if until.condition[1] in kill.victims:
                at = next(at for at, entry in enumerate(entries) if entry is kill.entry)
                return max(at + 1 - start, 0), True
        return until.length, False
    _, path, pages = until.condition
    look = f'cat {path} memory.current'
    lines = trial.header + [entry.text for entry in entries[:start]] + [look]
    for entry in entries[start:]:
        lines += [entry.text, look]
    run = trial.machine.run(lines).by_line()
    for length in range(until.length + 1):
        said = run[len(trial.header) + start + 1 + 2 * length][0]
        if said.isdigit() and int(said) >= pages * SCRIPT_PAGE:
            return length, True
    return until.length, False


def counted(number, name):
    return f'{number} {name}{"s" * (number != 1)}'


class Report:
    """What is printed of a run, line by line, and whether all was as expected."""

    def __init__(self, trial, unreached, go_on):
        self.trial, self.expansion, self.go_on = trial, trial.expansion, go_on
        # The lists with `until` whose condition never held: where they end, and their lines.
        self.unreached = [(order, line) for at, (line, order) in enumerate(trial.expansion.closed) if at in unreached]
        self.entries, self.page = self.expansion.entries, self.expansion.header.page
        self.well, self.told, self.dead, self.late = True, 0, [], {}
        self.phase, self.phase_begin, self.baseline, self.moves = 'since the beginning', 0, {}, None

    # Texts.

    def number(self, size):
        """A size in bytes, in MiB if a page has 64K or more, else in KiB."""
        return f'{float(Fraction(size) / UNITS["M"]):,.1f}' if self.in_mib() else f'{float(Fraction(size) / UNITS["K"]):,.0f}'

    def in_mib(self):
        return self.page >= 64 * UNITS['K']

    def unit(self):
        return 'MiB' if self.in_mib() else 'KiB'

    def moved(self, counts):
        read, out, dropped = (self.number(counts[what] * self.page) for what in COUNTS)
        return f'{read} {self.unit()} read in, {out} written out, {dropped} dropped'

    @staticmethod
    def place(entry):
        return f'line {entry.line}' + (f', round {".".join(map(str, entry.rounds))}' if entry.rounds else '')

    def true_path(self, path):
        names = {script: name for name, script in self.expansion.script_names.items()}
        return '/'.join(names.get(name, name) for name in path.split('/'))

    def reason(self, text):
        """The reason of a kill with the scenario's sizes and names."""
        def size(match):
            return f'{self.number(int(match[1]) * UNITS[match[2]] // SCRIPT_PAGE * self.page)} {self.unit()}'

        text = re.sub(r'^([0-9]+) pages?', lambda match: f'{self.number(int(match[1]) * self.page)} {self.unit()}', text)
        text = re.sub(r'(?<=memory.max )([0-9]+)([KMGT]?)\b', size, re.sub(r'(?<=whose )([0-9]+)([KMGT]?)\b', size, text))
        text = re.sub(r'(?:at or below )(/\S*?)(,|$)', lambda match: f'at or below {self.true_path(match[1])}{match[2]}', text)
        text = text.replace(' of the only task', ', the only task').replace('the most of', 'the largest of')
        text = text.replace('at or below /: no frame', 'on the machine: no frame')
        return text

    def why(self, text):
        """Why a line was refused, with the scenario's names."""
        if not text:
            return ''
        def page(match):
            of = self.trial.names.get(int(match[3]), match[3]) if match[2] == 'task' else f'file {self.true_path(match[3])}'
            return f'the page at {self.number(int(match[1]) * self.page)} {self.unit()} of {of}'

        text = re.sub(r'(?<=^the device failed: )page ([0-9]+) of (task|file) (\S+)', page, text)
        text = re.sub('^task ([0-9]+)', lambda match: self.trial.names.get(int(match[1]), match[1]), text)
        named = re.sub(r'(?<!\S)/[A-Za-z0-9._/-]*', lambda match: self.true_path(match[0]), text)
        return f' ({named})'

    # The run.

    def run(self):
        lines, looks, entry_at = list(self.trial.header), {}, {}
        for entry in self.entries:
            if not entry.note:
                lines.append(entry.text)
                entry_at[len(lines)] = entry
                continue
            for _, path, _ in self.looked_at(entry.note):
                for file in LOOKED_AT:
                    lines.append(f'cat {path} {file}')
                    looks[entry.order, path, file] = len(lines)
        run = self.trial.machine.run(lines)
        self.looks, self.answers = looks, run.by_line()
        real = [entry for entry in self.entries if not entry.note]
        kills, own = {}, Run([(number, text) for number, text in run.answers if number in entry_at], run.reasons, run.refusals, run.summary)
        for kill in self.trial.kills_of(own, entry_at.get, real):
            kills.setdefault(kill.entry.order, []).append(kill)
        expected = {entry.order: note for note in self.entries if note.note and note.note[0] == 'expect' and note.note[1][0] == 'refused'
                    for entry in note.note[1][2]}
        self.refused = refused = {}
        numbers = {entry.order: number for number, entry in entry_at.items()}
        for (line, _, _), (text, pages) in self.expansion.rounded.items():
            print(f'line {line}: {text} is no whole page: taken as {pages}p')
        end = len(self.entries)
        for at, entry in enumerate(self.entries):
            self.tell_unreached(entry.order)
            for text in self.answers.get(numbers.get(entry.order), []):
                self.take_answer(entry, text, kills.get(entry.order, []), refused)
            for kill in kills.get(entry.order, []):
                self.tell_kill(kill)
            if entry.note:
                self.tell_note(at, entry)
            elif entry.order in refused and not self.is_expected(refused[entry.order], expected.get(entry.order)):
                why = self.why(run.refusals.get(numbers[entry.order])) if len(refused[entry.order]) == 1 and not entry.words.startswith('raw ') else ''
                print(f'{self.place(entry)}  {entry.words}: refused with {", ".join(refused[entry.order])}{why}')
                self.well = False
                if not self.go_on:
                    end = at + 1
                    break
        else:
            self.tell_unreached(math.inf)
        self.tell_end(end)
        return 0 if self.well else 1

    def tell_unreached(self, order):
        """Tells of the lists that ended before this place."""
        while self.unreached and self.unreached[0][0] < order:
            print(f'line {self.unreached.pop(0)[1]}: until is not reached')

    @staticmethod
    def looked_at(note):
        if note[0] in ('show', 'mark'):
            return note[-1]
        return [note[1][1]] if note[1][0] == 'group' else []

    @staticmethod
    def is_expected(words, note):
        return note is not None and all(word == note.note[1][1] for word in words)

    def take_answer(self, entry, text, kills, refused):
        match = re.fullmatch(r'([0-9]+|error|daemon) (\D.*)', text)
        if not match:
            return
        who, word = match.groups()
        if word != 'killed':
            refused.setdefault(entry.order, []).append(word)
        elif not any(int(who) in kill.victims for kill in kills):
            self.late[int(who)] = self.late.get(int(who), 0) + 1

    def tell_kill(self, kill):
        self.dead += kill.victims
        self.told += 1
        if self.told > MOST_KILLS_TOLD:
            return
        names = [self.trial.names[task] for task in kill.victims]
        text, *more = re.sub(r'(?<=no frame is free) of [0-9]+ \([^)]*\)', '', kill.reason).split('; ')
        group = re.search(r'; all [0-9]+ tasks of (/\S*) are killed', kill.reason)
        others = ''
        if names[1:]:
            others = f', and with it all of {self.true_path(group[1])}: {", ".join(names[1:])}'
        ties = ''.join(self.ties(part) for part in more)
        print(f'{self.place(kill.entry)}  {kill.entry.words}: {names[0]} is killed{others} ({self.reason(text)}{ties})')

    def ties(self, text):
        """Which other tasks were as large as the victim, if the text says so."""
        found = re.fullmatch(r'tasks? ([0-9]+)(?:(,| and) ([0-9]+))?( and [0-9]+ more)? (is|are) equally large, and the lowest number is chosen (.*)', text)
        if not found:
            return ''
        first, joint, second, more, verb, linux = found.groups('')
        names = ' '.join(self.trial.names[int(task)] for task in (first, second) if task).replace(' ', f'{joint} ')
        return f'; {names}{more} {verb} equally large, and the first in the scenario is chosen {linux}'

    def value(self, entry, path, file, key=None):
        """A number that a control file had at this place; None if the group isn't there."""
        said = self.answers[self.looks[entry.order, path, file]]
        if said[0].startswith('error '):
            return None
        return int(said[0] if key is None else dict(line.split() for line in said)[key])

    def tell_note(self, at, entry):
        kind = entry.note[0]
        if kind == 'mark':
            self.phase, self.phase_begin = entry.note[1] or f'since line {entry.line}', at
            self.baseline = {made: self.local_counts(entry, path) for _, path, made in entry.note[2]}
        elif kind == 'show':
            self.tell_table(at, entry)
        else:
            self.tell_expectation(at, entry)

    def local_counts(self, entry, path):
        return [self.value(entry, path, 'memory.events.local', key) or 0 for key in ('max', 'oom_kill')]

    def counts_of_phase(self, at):
        now, then = self.trial.counts(self.entries, at), self.trial.counts(self.entries, self.phase_begin)
        return {what: now[what] - then[what] for what in COUNTS}

    def moved_by(self, at, path):
        """What a group read in, wrote out and dropped in the phase, as it is shown. All that was moved must be what the machine counted."""
        if self.moves is None:
            self.moves = Moves(self.trial.machine, self.trial.header, [entry for entry in self.entries if not entry.note])
        if self.moves.by_entry is None:
            return [UNKNOWN] * len(COUNTS)
        begin, end = (sum(not entry.note for entry in self.entries[:place]) for place in (self.phase_begin, at))
        counts, whole = self.moves.count(begin, end, path), self.moves.count(begin, end)
        if whole != self.counts_of_phase(at):
            raise RuntimeError(f'all groups moved {whole}, and the machine {self.counts_of_phase(at)}')
        return [self.number(counts[what] * self.page) for what in COUNTS]

    def tell_table(self, at, entry):
        print(f'{self.place(entry):<26}{"current":>10}{"anon":>10}{"file":>10}{"at max":>9}{"killed":>7}{"in":>10}{"out":>10}{"dropped":>10}')
        for true, path, made in entry.note[1]:
            current = self.value(entry, path, 'memory.current')
            if current is None:
                continue
            numbers = [current] + [self.value(entry, path, 'memory.stat', key) for key in ('anon', 'file')]
            shown = [self.number(number // SCRIPT_PAGE * self.page) for number in numbers]
            refused, killed = (now - then for now, then in zip(self.local_counts(entry, path), self.baseline.get(made, (0, 0))))
            moved = ''.join(f'{number:>10}' for number in self.moved_by(at, path))
            print(f'{"  " + true:<26}{shown[0]:>10}{shown[1]:>10}{shown[2]:>10}{refused:>9}{killed:>7}{moved}')
        print(f'  {self.phase}: {self.moved(self.counts_of_phase(at))}')

    def tell_expectation(self, at, entry):
        what = entry.note[1]
        kind, place = what[0], self.place(entry)
        if kind == 'refused':
            words = [word for other in what[2] for word in self.refused.get(other.order, [])]
            if words and all(word == what[1] for word in words):
                first = next(other for other in what[2] if other.order in self.refused)
                print(f'{self.place(first)}: refused with {what[1]}, as expected')
                return
            met, said = False, 'nothing was refused' if not words else 'refused with ' + ', '.join(words)
        elif kind == 'group':
            (_, path, _), key, operator, size = what[1:]
            met, said = self.group_is(entry, path, key, operator, size)
        elif kind == 'machine':
            size = self.counts_of_phase(at)[what[1]] * self.page
            met, said = COMPARED[what[2]](size, what[3]), f'{self.number(size)} {self.unit()}'
        elif kind == 'killed':
            met, said = set(what[1]) == set(self.dead), f'killed: {", ".join(self.trial.names[task] for task in self.dead) or "nobody"}'
        else:
            before = {other.text for other in self.entries[:at]}
            gone = [task for task in what[1] if task in self.dead or f'{task} exit' in before]
            met, said = not gone, f'killed or ended: {", ".join(self.trial.names[task] for task in gone)}'
        self.well = self.well and met
        print(f'{place}  {entry.text}: ' + ('as expected' if met else f'NOT MET, {said}'))

    def group_is(self, entry, path, key, operator, wanted):
        if key.startswith('events.'):
            number = self.value(entry, path, 'memory.events', key.removeprefix('events.'))
            if number is None:
                return False, 'the group is not there'
            return COMPARED[operator](number, wanted), str(number)
        file, name = ('memory.current', None) if key == 'current' else ('memory.stat', key)
        number = self.value(entry, path, file, name)
        if number is None:
            return False, 'the group is not there'
        size = number // SCRIPT_PAGE * self.page
        return COMPARED[operator](size, wanted), f'{self.number(size)} {self.unit()}'

    def tell_end(self, end):
        if self.told > MOST_KILLS_TOLD:
            print(f'{self.told - MOST_KILLS_TOLD} more kills')
        for task, count in sorted(self.late.items()):
            print(f'{self.trial.names[task]}: {count:,} line{"s" * (count != 1)} after its death')
        header = self.expansion.header
        swap = f'{self.number(header.swap * self.page)} swap' if header.swap else 'no swap'
        print(f'{self.number(header.frames * self.page)} {self.unit()} of memory, {swap}, {counted(len(self.expansion.groups), "group")}, '
              f'{counted(len(self.expansion.tasks), "task")}; {len(self.dead)} killed; {self.moved(self.trial.counts(self.entries, end))}')


def run(items, settings, program, go_on):
    """Finds the lengths of all `until`, carries out the scenario, and gives the status."""
    cuts, unreached = [], set()
    while True:
        expansion = Expansion(items, settings, cuts)
        trial = Trial(Machine(program, expansion.header.as_linux), expansion)
        if expansion.until is None:
            return Report(trial, unreached, go_on).run()
        length, reached = least_cut(trial)
        if not reached:
            unreached.add(len(cuts))
        cuts.append(length)
