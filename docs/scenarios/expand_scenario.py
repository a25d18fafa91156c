#!/usr/bin/env python3
"""Expands a scenario into its script. It was written independently of `memcgrun expand`, as a second opinion for tests.

    expand_scenario.py FILE [--set NAME=WORD].. [--cuts N,N,..]
    expand_scenario.py FILE [--set NAME=WORD].. --run PROGRAM [--go-on]
    expand_scenario.py --self-test

Without `--run` it prints the script. `--cuts` gives the lengths at which the lists of `until` are cut, in their order; the script ends with the
longest list of the first `until` that has no length. With `--run` it carries out the scenario with PROGRAM, as `dist/take program` prints it, finds
the lengths, and prints who is killed and what each `show` and `expect` says. A fault is printed as `FILE:LINE:COLUMN: TEXT`, with status 1.
"""
import argparse
import itertools
import math
import os
import re
import sys
from dataclasses import dataclass, field
from fractions import Fraction

from fault_texts import (
    ACTS, EXPECTED_IN, NOT_A_PART, expected, no_group, no_parent, no_task, too_little, too_much_at_once, too_much_memory, too_much_of_files, wrong_page)
from scenario_text import (
    EVENTS, HEADER, KEYS, LANGUAGE, OPERATORS, U32, U64, Block, Fault, Line, Word, Words, check_raw, drawn, fill, is_path, name_and_index, names_of,
    number_of, read_scenario, read_words, size_of, task_name, told)

MOST_FRAMES = 65_536
MOST_SWAP = 65_536
MOST_BLOCKS = 131_072
MOST_FILES = 64
MOST_TASKS = 65_535
TASK_PAGES = 1_024
MOST_ROUNDS = MOST_DRAWS = 1_000_000
SCRIPT_PAGE = 4_096
EXPECTED = ('in', 'out', 'dropped', 'killed', 'alive', 'nobody', 'refused')
WATERMARKS = 'the watermarks are not in order, or above the memory'
PAST_END = 'there are not so many pages; take a larger page, or more tasks'
NOT_TOGETHER, NO_UNTIL = 'not allowed inside together', 'no until inside together or another until'
PAGE_SIZES = [SCRIPT_PAGE << power for power in range(15)]


@dataclass(slots=True)
class Entry:
    """A line of the script; or, with a note, a `show`, `expect` or `mark`. `effects` are what it does to marks and to places in files, and `words`
    are those of the scenario's line, of one task."""

    text: str
    line: int
    rounds: tuple
    effects: tuple
    order: int
    words: str
    note: tuple | None = None
    unreached: bool = False


@dataclass
class Header:
    page: int = SCRIPT_PAGE
    frames: int = MOST_FRAMES
    swap: int = 0
    watermarks: tuple | None = None
    files: dict = field(default_factory=dict)
    faults: list = field(default_factory=list)
    recursive: bool = True
    as_linux: bool = True


@dataclass(frozen=True)
class Until:
    """An `until` that has no length yet: its condition, how many lines its longest list has, and where it is."""

    condition: tuple
    length: int
    line: int
    rounds: tuple


class Expansion:
    """The script that a scenario stands for, given what `--set` says and the lengths of its first lists with `until`."""

    def __init__(self, items, settings=(), cuts=()):
        self.settings, self.cuts = dict(settings), list(cuts)
        self.header, self.scopes, self.rounds = Header(), [{}], ()
        self.script_names, self.groups, self.made = {}, {}, itertools.count(1)
        self.tasks, self.marks, self.places = {}, {}, {}
        self.orders, self.in_until, self.until = itertools.count(), False, None
        self.rounded, self.said = {}, ''
        # For each list with `until`: its line, and how many entries were made when it had ended.
        self.closed = []
        lines = self.read_header(items)
        self.entries = [entry for entry in self.expand(items[lines:]) if not entry.unreached]
        if self.until is None and self.cuts:
            raise ValueError(f'{len(self.cuts)} more lengths than the scenario has until')

    # The header.

    def read_header(self, items):
        """Reads the header, and gives how many lines it has. The page's size, the memory and the swap count wherever they are said."""
        read, count = [], 0
        for item in items:
            words = self.words_of(item) if isinstance(item, Line) else None
            if not words or words.ahead() not in HEADER + ('let',):
                break
            if words.ahead() == 'let':
                self.let(words)
            else:
                read.append(words)
            count += 1
        for word in ('page', 'memory', 'swap'):
            for words in read:
                if words.ahead() == word:
                    self.count_early(word, words)
                    break
        said = set()
        for words in read:
            word = words.next()
            if word.plain in said and word.plain not in ('file', 'fault'):
                raise word.fault('the header already has this line')
            said.add(word.plain)
            getattr(self, 'read_' + word.plain)(words)
            words.done()
        return count

    def count_early(self, word, words):
        """Reads a line that counts for all lines. A faulty page is reported at once, a faulty memory or swap in the order of the lines."""
        try:
            words.at = 1
            getattr(self, 'read_' + word)(words)
        except Fault:
            if word == 'page':
                raise
        finally:
            words.at = 0

    def read_page(self, words):
        word = words.next()
        page = size_of(word, word.text, SCRIPT_PAGE)
        if page not in PAGE_SIZES:
            raise word.fault(wrong_page(math.ceil(page)))
        self.header.page = int(page)

    def read_memory(self, words):
        self.header.frames = self.within(words.next(), self.down, 1, MOST_FRAMES, too_much_memory)

    def read_swap(self, words):
        self.header.swap = self.within(words.next(), self.down, 0, MOST_SWAP, too_much_memory)

    def read_watermarks(self, words):
        low, high = words.next(), words.next()
        pages = self.down(low), self.down(high)
        if pages[0] > pages[1]:
            raise low.fault(WATERMARKS)
        if pages[1] > self.header.frames:
            raise high.fault(WATERMARKS)
        self.header.watermarks = pages

    def read_file(self, words):
        name = words.next()
        if name.text in ('', '.', '..'):
            raise name.fault('not a name')
        if name.text in self.header.files:
            raise name.fault('there is already a file of this name')
        used = self.header.swap + sum(self.header.files.values())
        pages = self.within(words.next(), self.up, 1, MOST_BLOCKS - used, lambda text, exact, page, _: too_much_of_files(text, exact, page, MOST_BLOCKS, used))
        if len(self.header.files) == MOST_FILES:
            raise words.words[0].fault('more files than there can be')
        self.script_name(name.text)
        self.header.files[name.text] = pages

    def read_fault(self, words):
        call = words.one_of(('read', 'write'))
        self.header.faults.append((call, number_of(words.next(), 1, U32 - 1)))

    def read_protection(self, words):
        self.header.recursive = words.one_of(('recursive', 'plain')) == 'recursive'

    def read_placement(self, words):
        self.header.as_linux = words.one_of(('linux', 'plain')) == 'linux'

    # Lines and blocks.

    def words_of(self, line):
        return Words([fill(word, self.scopes) for word in line.words])

    def expand(self, items):
        made, above = [], None
        for item in items:
            if isinstance(item, Block):
                above = self.block(item)
                made += above
            else:
                words = self.words_of(item)
                entries = [entry for member in self.line(words, above) for entry in member]
                made += entries
                above = None if words.words[0].plain in ('let', 'show', 'mark', 'expect') else entries
        return made

    def block(self, block):
        words = self.words_of(block.head)
        if words.next().plain == 'together':
            words.done()
            return self.together(block)
        return self.repeat(block, words)

    def repeat(self, block, words, inside=None):
        """The list of a `repeat`; `inside` expands the lines of a round, as `expand` unless it says otherwise."""
        first, names, condition = words.next(), [], None
        if words.ahead() == 'in':
            words.next()
            self.check_name(first)
            names, values = [first.text], [words.next()]
            while words.peek() and words.ahead() != 'until':
                values.append(words.next())
        else:
            values = [None] * number_of(first, 0, MOST_ROUNDS)
            if words.ahead() == 'as':
                words.next()
                names.append(self.check_name(words.next()).text)
        if words.ahead() == 'until':
            word = words.next()
            if inside or self.in_until:
                raise word.fault(NO_UNTIL)
            condition = self.read_condition(words, None)
        words.done()

        def rounds():
            made = []
            for number, value in enumerate(values, 1):
                count = Word(str(number), ' ' * len(str(number)), False, str(number))
                self.scopes.append({'round': count, **{name: value or count for name in names}})
                self.rounds += (number,)
                made += (inside or self.expand)(block.items)
                self.rounds = self.rounds[:-1]
                self.scopes.pop()
            return made

        return self.cut(rounds, condition, words.words) if condition else rounds()

    def together(self, block):
        members = []
        for item in block.items:
            if isinstance(item, Line):
                members += self.line(self.worked(item), None)
            else:
                members.append(self.repeated(item))
        # The place i/n as a whole number: i times a multiple of all n, by n.
        multiple = math.lcm(*(len(member) for member in members if member))
        placed = [(i * (multiple // len(member)), entry) for member in members for i, entry in enumerate(member, 1)]
        return [entry for _, entry in sorted(placed, key=lambda pair: pair[0])]

    def repeated(self, block):
        """A `repeat` inside of `together`."""
        words = self.words_of(block.head)
        head = words.next()
        if head.plain != 'repeat':
            raise head.fault(NOT_TOGETHER)
        return self.repeat(block, words, lambda items: [
            entry for item in items
            for entry in (self.repeated(item) if isinstance(item, Block) else itertools.chain(*self.line(self.worked(item), None)))])

    def worked(self, line):
        """The words of a line that may stand inside of `together`."""
        words = self.words_of(line)
        first = words.words[0]
        act = words.words[1] if len(words.words) > 1 else None
        if first.plain in LANGUAGE and first.plain not in ('daemon', 'reclaim'):
            raise first.fault(NOT_TOGETHER)
        if first.plain not in LANGUAGE and act and act.plain in ('fork', 'exit'):
            raise act.fault(NOT_TOGETHER)
        for word in words.words[2:3]:
            if word.plain == 'until' and act.plain == 'write':
                raise word.fault(NO_UNTIL)
        return words

    def cut(self, longest, condition, words):
        """What is left of a list with `until`. If its length isn't known, the script ends with the longest list, and the rest is only searched for faults."""
        marks, places = dict(self.marks), dict(self.places)
        self.in_until = True
        made = longest()
        self.in_until = False
        condition = self.judge_condition(condition)
        self.closed.append((words[0].line, next(self.orders)))
        if self.until:
            return made
        lines = [at for at, entry in enumerate(made, 1) if not entry.note]
        if not self.cuts:
            self.until = Until(condition, len(lines), words[0].line, self.rounds)
            return made
        length = self.cuts.pop(0)
        if length < len(lines):
            made = made[:lines[length - 1] if length else 0]
            self.marks, self.places = marks, places
            for entry in sorted(made, key=lambda entry: entry.order):
                self.apply(entry.effects)
        return made

    def apply(self, effects):
        for kind, key, value in effects:
            if kind == 'written':
                self.marks[key] = max(self.marks.get(key, 0), value)
            elif kind == 'mark':
                self.marks[key] = value
            else:
                self.places[key] = value

    def entry(self, line, text, *effects, note=None):
        self.apply(effects)
        return Entry(text, line, self.rounds, effects, next(self.orders), self.said, note, self.until is not None)

    def line(self, words, above):
        """The lists of a line: one for each task of it."""
        first = words.peek()
        word = first.plain
        self.said = str(words)
        if word in HEADER:
            raise first.fault('the header comes before all other lines')
        if word in ('let', 'show', 'mark', 'expect', 'group', 'set', 'reclaim', 'rmdir', 'task', 'attach', 'daemon', 'raw'):
            if word == 'let':
                self.let(words)
                return []
            words.next()
            handler = getattr(self, 'line_' + word)
            made = handler(words, first.line, above) if word == 'expect' else handler(words, first.line)
            return [made]
        if word in LANGUAGE:
            raise first.fault('no line begins with this word')
        return self.task_line(words)

    def let(self, words):
        words.next()
        name, value = self.check_name(words.next()), words.next()
        words.done()
        self.scopes[-1][name.text] = self.settings.get(name.text, value)

    def check_name(self, word):
        if not word.plain or word.outside('{}'):
            raise word.fault('not a name')
        return word

    # Sizes of the scenario's pages.

    def round_size(self, word, text, up):
        page = self.header.page
        exact = size_of(word, text, page) / page
        pages = -(-exact.numerator // exact.denominator) if up else exact.numerator // exact.denominator
        if pages != exact:
            # Once for each place: in a part, the beginning is rounded down and the end up.
            self.rounded.setdefault((word.line, word.column, up), (text, pages))
        return pages

    def up(self, word):
        return self.round_size(word, word.text, True)

    def down(self, word):
        return self.round_size(word, word.text, False)

    def within(self, word, rounding, low, high, too_much):
        """The pages of a size, if they are so many. `too_much` gives the text for more."""
        pages, page = rounding(word), self.header.page
        if pages < low:
            raise word.fault(too_little(page))
        if pages > high:
            raise word.fault(too_much(word.text, math.ceil(size_of(word, word.text, page)), page, high))
        return pages

    def bytes_of(self, word, rounding):
        return str(rounding(word) * SCRIPT_PAGE)

    def part(self, word, most):
        """The first page of a part, and the one after its last."""
        begin, dots, end = word.text.partition('..')
        if word.has_quotes or not dots:
            raise word.fault(NOT_A_PART)
        page = self.header.page
        if size_of(word, begin, page, True) >= size_of(word, end, page, True):
            raise word.fault('an empty part')
        first, after = self.round_size(word, begin, False), self.round_size(word, end, True)
        if after > most:
            raise word.fault(PAST_END)
        return first, after

    # Groups.

    def script_name(self, name):
        if re.fullmatch(r'[A-Za-z0-9._-]{1,32}', name) and not name.startswith('_x'):
            return name
        return self.script_names.setdefault(name, f'_x{len(self.script_names) + 1}')

    def script_path(self, names):
        return '/' + '/'.join(self.script_name(name) for name in names)

    def group_there(self, word, root=True):
        names = names_of(word)
        if names and names not in self.groups:
            raise word.fault(no_group(word.text, self.paths()))
        if not names and not root:
            raise word.fault('not allowed for the root group')
        return names

    def paths(self):
        return ['/' + '/'.join(names) for names in self.groups]

    def line_group(self, words, line):
        path = words.next()
        names = names_of(path)
        if names in self.groups or not names:
            raise path.fault('the group is already there')
        if names[:-1] and names[:-1] not in self.groups:
            raise path.fault(no_parent(path.text, self.paths()))
        self.groups[names] = next(self.made)
        script_path = self.script_path(names)
        made = [self.entry(line, f'group {script_path}')]
        while words.peek():
            made.append(self.key_and_value(words, line, script_path))
        return made

    def key_and_value(self, words, line, script_path):
        word = words.next()
        key = (word.plain or '').removeprefix('memory.')
        if key not in KEYS:
            raise word.fault(expected(word, 'max, min, low or oom.group', KEYS))
        value = words.next()
        if key == 'oom.group':
            if value.plain not in ('0', '1'):
                raise value.fault('expected 0 or 1')
            text = value.plain
        else:
            text = 'max' if value.plain == 'max' else self.bytes_of(value, self.down)
        return self.entry(line, f'set {script_path} memory.{key} {text}')

    def line_set(self, words, line):
        names = self.group_there(words.next())
        made = [self.key_and_value(words, line, self.script_path(names))]
        words.done()
        return made

    def line_reclaim(self, words, line):
        names = self.group_there(words.next())
        text = self.bytes_of(words.next(), self.down)
        words.done()
        return [self.entry(line, f'set {self.script_path(names)} memory.reclaim {text}')]

    def line_rmdir(self, words, line):
        word = words.next()
        names = self.group_there(word, root=False)
        words.done()
        if any(other[:len(names)] == names and other != names for other in self.groups):
            raise word.fault('there are groups below it')
        del self.groups[names]
        return [self.entry(line, f'rmdir {self.script_path(names)}')]

    # Tasks.

    def new_task(self, word, name, index):
        if (name, index) in self.tasks:
            raise word.fault('there is already a task of this name')
        if len(self.tasks) == MOST_TASKS:
            raise word.fault('more tasks than there can be')
        self.tasks[name, index] = number = len(self.tasks) + 1
        return number

    def line_task(self, words, line):
        word = words.next()
        name, index = name_and_index(word)
        if index == '*':
            raise word.fault('not a name')
        words.one_of(('in',), EXPECTED_IN.removeprefix('expected '))
        path = self.script_path(self.group_there(words.next()))
        words.done()
        numbers = [None] if index is None else range(index[0], index[1] + 1)
        return [self.entry(line, f'task {self.new_task(word, name, number)} {path}') for number in numbers]

    def tasks_named(self, word, ranges=True, begins=False):
        """The numbers of the tasks that a word names; `begins` says whether it is the first of its line."""
        name, index = name_and_index(word, ranges)
        if index == '*':
            found = [number for (other, _), number in self.tasks.items() if other == name]
            if not found:
                raise word.fault(no_task(word, self.tasks, begins, LANGUAGE))
            return found
        found = []
        for number in [None] if index is None else range(index[0], index[1] + 1):
            if (name, number) not in self.tasks:
                raise word.fault(no_task(word, self.tasks, begins, LANGUAGE))
            found.append(self.tasks[name, number])
        return found

    def line_attach(self, words, line):
        tasks = self.tasks_named(words.next())
        path = self.script_path(self.group_there(words.next()))
        words.done()
        return [self.entry(line, f'attach {task} {path}') for task in tasks]

    def line_daemon(self, words, line):
        words.done()
        return [self.entry(line, 'daemon')]

    def task_line(self, words):
        first = words.next()
        tasks = self.tasks_named(first, begins=True)
        act = words.one_of(ACTS, 'write, read, free, fork, exit, fread or fwrite')
        rest = words.at
        lists = []
        names = {number: name for name, number in self.tasks.items()}
        for task in tasks:
            words.at = rest
            self.said = ' '.join([task_name(*names[task])] + [word.source for word in words.words[1:]])
            lists.append(getattr(self, 'act_' + act)(words, first.line, task))
            words.done()
        return lists

    def act_write(self, words, line, task):
        mark = self.marks.get(task, 0)
        word = words.next()
        if word.plain == 'until':
            if self.in_until:
                raise word.fault(NO_UNTIL)
            condition = self.read_condition(words, task)
            words.done()
            return self.cut(lambda: self.written(line, task, range(mark, TASK_PAGES)), condition, words.words)
        if '..' in word.text:
            return self.written(line, task, self.random(words, *self.part(word, TASK_PAGES)))
        pages = self.up(word)
        if mark + pages > TASK_PAGES and self.until is None:
            raise word.fault(PAST_END)
        return self.written(line, task, range(mark, min(mark + pages, TASK_PAGES)))

    def written(self, line, task, pages):
        return [self.entry(line, f'{task} write {page} 0 1', ('written', task, page + 1)) for page in pages]

    def act_read(self, words, line, task):
        part = (0, self.marks.get(task, 0))
        if words.peek() and words.ahead() != 'random':
            part = self.part(words.next(), TASK_PAGES)
        return [self.entry(line, f'{task} read {page} 0') for page in self.random(words, *part)]

    def random(self, words, first, end):
        """The pages of a part, or those that are drawn of it."""
        if words.ahead() != 'random':
            return range(first, end)
        words.next()
        count = number_of(words.next(), 1, MOST_DRAWS)
        words.one_of(('seed',), '"seed" here')
        seed = number_of(words.next(), 0, U32 - 1)
        return drawn(first, end, count, seed) if first < end else []

    def act_free(self, words, line, task):
        mark = self.marks.get(task, 0)
        first, end, lowered = 0, mark, 0
        if word := words.next_or_none():
            if '..' in word.text:
                first, end = self.part(word, TASK_PAGES)
                lowered = first if end == mark else mark
            else:
                pages = self.down(word)
                if pages > mark and self.until is None:
                    raise word.fault('the task has not so many pages')
                first = lowered = max(mark - pages, 0)
        made = [self.entry(line, f'{task} free {page}') for page in range(first, end)]
        if made:
            made[-1].effects = (('mark', task, lowered),)
            self.apply(made[-1].effects)
        return made

    def act_fork(self, words, line, task):
        word = words.next()
        name, index = name_and_index(word, ranges=False)
        child = self.new_task(word, name, index[0] if index else None)
        return [self.entry(line, f'{task} fork {child}', ('mark', child, self.marks.get(task, 0)))]

    def act_exit(self, words, line, task):
        return [self.entry(line, f'{task} exit')]

    def act_fread(self, words, line, task):
        return self.file_line(words, line, task, 'fread', '')

    def act_fwrite(self, words, line, task):
        return self.file_line(words, line, task, 'fwrite', ' 1')

    def file_line(self, words, line, task, act, byte):
        word = words.next()
        if word.text not in self.header.files:
            raise word.fault('there is no such file')
        size, name = self.header.files[word.text], self.script_name(word.text)
        if words.ahead() == 'next':
            words.next()
            at = self.places.get((task, word.text), 0)
            count = self.within(words.next(), self.up, 0, MOST_DRAWS, lambda _, exact, page, most: too_much_at_once(page, most))
            pages = [(at + i) % size for i in range(count)]
            return [self.entry(line, f'{task} {act} {name} {page} 0{byte}', ('place', (task, word.text), (page + 1) % size)) for page in pages]
        part = (0, size)
        if words.peek() and words.ahead() != 'random':
            part = self.part(words.next(), size)
        return [self.entry(line, f'{task} {act} {name} {page} 0{byte}') for page in self.random(words, *part)]

    # Conditions, tables and expectations.

    def read_condition(self, words, task):
        """The words of a condition, and the task whose `write` has it."""
        word = words.next()
        if word.plain == 'killed':
            name = words.next_or_none() if task else words.next()
            return 'killed', name or task
        if not is_path(word):
            raise word.fault(expected(word, 'killed or a path', ('killed',)))
        words.one_of(('current',), '"current" here')
        return 'current', word, words.next()

    def judge_condition(self, condition):
        """The condition of tasks and groups that are there once the longest list was made: the task's number, or the path and how many pages."""
        if condition[0] == 'killed':
            who = condition[1]
            return 'killed', who if isinstance(who, int) else self.tasks_named(who, ranges=False)[0]
        names = self.group_there(condition[1], root=False)
        return 'current', self.script_path(names), self.up(condition[2])

    def note(self, words, line, *note):
        return [self.entry(line, str(words), note=note)]

    def shown(self, paths):
        return [('/' + '/'.join(names), self.script_path(names), self.groups[names]) for names in paths]

    def line_show(self, words, line):
        paths = [self.group_there(word, root=False) for word in iter(words.next_or_none, None)]
        return self.note(words, line, 'show', self.shown(paths or self.groups))

    def line_mark(self, words, line):
        return self.note(words, line, 'mark', ' '.join(word.text for word in words.words[1:]), self.shown(self.groups))

    def line_expect(self, words, line, above):
        word = words.next()
        if is_path(word):
            names = self.group_there(word, root=False)
            key = words.one_of(('current', 'anon', 'file') + tuple(f'events.{event}' for event in EVENTS),
                               'current, anon, file or events.low, .max, .oom, .oom_kill, .oom_group_kill')
            what = ('group', self.shown([names])[0], key, *self.compared(words, key.startswith('events.')))
        elif word.plain in ('in', 'out', 'dropped'):
            what = ('machine', word.plain, *self.compared(words, False))
        elif word.plain in ('killed', 'alive'):
            what = (word.plain, [self.tasks_named(name, ranges=False)[0] for name in words.rest()])
        elif word.plain == 'nobody':
            words.one_of(('killed',), '"killed" here')
            what = ('killed', [])
        elif word.plain == 'refused':
            what = ('refused', words.next().text, above)
            if above is None:
                raise word.fault('no line that could be refused is right above')
        else:
            raise word.fault(expected(word, 'a path, in, out, dropped, killed, alive, nobody or refused', EXPECTED))
        words.done()
        return self.note(words, line, 'expect', what)

    def compared(self, words, is_count):
        """How a number is compared, and with what: a count, or bytes that are not rounded."""
        operator = words.next().plain if words.ahead() in OPERATORS else '='
        word = words.next()
        return operator, Fraction(number_of(word, 0, U64 - 1)) if is_count else size_of(word, word.text, self.header.page)

    def line_raw(self, words, line):
        rest = words.rest()
        check_raw(rest)
        return [self.entry(line, ' '.join(word.text for word in rest))]

    # The script.

    def header_lines(self):
        header = self.header
        size = f'{header.page >> 20}M' if header.page >> 20 else f'{header.page >> 10}K'
        yield f'# page {size}; {"with" if header.as_linux else "without"} --as-linux'
        yield f'frames {header.frames}'
        yield f'swap {header.swap}'
        if header.watermarks:
            yield 'watermarks {} {}'.format(*header.watermarks)
        yield 'trace 1048576'
        if header.recursive:
            yield 'recursiveprot'
        for name, pages in header.files.items():
            yield f'file {self.script_name(name)} {pages}'
        for call, number in header.faults:
            yield f'fault {call} {number}'

    def script(self):
        yield from self.header_lines()
        place = None
        for entry in self.entries:
            here = (entry.line, entry.rounds)
            told = f'# {entry.line}' + (f', round {".".join(map(str, entry.rounds))}' if entry.rounds else '')
            if entry.note:
                yield f'{told}: {entry.text}'
            else:
                if here != place:
                    yield told
                yield entry.text
            place = here


def setting(text):
    """The name and the word of a `--set`."""
    name, equals, value = text.partition('=')
    words = read_words(value, 0)
    if not equals or len(words) != 1 or words[0].source != value:
        raise argparse.ArgumentTypeError(f'{text}: expected NAME=WORD')
    return name, words[0]


def lets_of(items):
    """The names that some `let` gives to a word."""
    for item in items:
        if isinstance(item, Block):
            yield from lets_of(item.items)
        elif item.words[0].plain == 'let' and len(item.words) > 1:
            yield item.words[1].text


def main():
    parser = argparse.ArgumentParser(description='Prints the script of a scenario, or runs it.')
    parser.add_argument('file', nargs='?', metavar='FILE')
    parser.add_argument('--set', action='append', default=[], type=setting, metavar='NAME=WORD', help='use WORD in place of the word that let NAME gives')
    parser.add_argument('--cuts', default='', metavar='N,N,..', help='the lengths at which the lists of until are cut, in their order')
    parser.add_argument('--run', metavar='PROGRAM', help='carry out the scenario with this program')
    parser.add_argument('--go-on', action='store_true', help='go on after a line that is refused')
    parser.add_argument('--self-test', action='store_true', help='compare the expansion with the tables of the language')
    options = parser.parse_args()
    if options.self_test:
        import self_test
        return self_test.main()
    if options.file is None:
        parser.error('FILE is missing')
    if options.run and not os.access(options.run, os.X_OK):
        parser.error(f'--run: there is no program {options.run}; name one, as "$(dist/take program)" does')
    data = b''
    try:
        with open(options.file, 'rb') as file:
            data = file.read()
        items = read_scenario(data)
        for name, _ in options.set:
            if name not in lets_of(items):
                print(f'{options.file}: --set {name}: no let has this name', file=sys.stderr)
                return 1
        if options.run:
            import run_scenario
            return run_scenario.run(items, options.set, options.run, options.go_on)
        expansion = Expansion(items, options.set, [int(number) for number in options.cuts.split(',') if number])
        sys.stdout.write(''.join(f'{line}\n' for line in expansion.script()))
        return 0
    except Fault as fault:
        print(f'{options.file}:{told(fault, data)}', file=sys.stderr)
    except (OSError, ValueError) as error:
        print(f'{options.file}: {error}', file=sys.stderr)
    return 1


if __name__ == '__main__':
    sys.exit(main())
