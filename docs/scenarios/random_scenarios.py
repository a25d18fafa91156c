#!/usr/bin/env python3
"""Writes random scenarios, to compare two expanders. They use each construct of the language and run in some milliseconds.

    random_scenarios.py N SEED DIRECTORY [--faulty]

writes DIRECTORY/0001.scenario and so on. With `--faulty` each has one mistake, and its first line says where: `# fault LINE:COLUMN`.
"""
import argparse
import copy
import pathlib
import random
import sys

from expand_scenario import Expansion
from scenario_text import Fault, read_scenario

PLAIN_NAMES = ['a', 'b.slice', 'pod-1', 'web_2', 'system.slice', 'x' * 32]
ODD_NAMES = ['user@1000.service', '"a b"', '_x1', '_xyz', 'cri-containerd-' + 'f' * 64 + '.scope', r'system-getty\x2d.slice', '"no # comment"', '"{i}"', 'größe', '"q"uoted']
TASK_NAMES = ['app', 'batch', 'web', 'db', 'c-1', '7', 'größe', '"the job"', '"write"', 'a"] ["z']
MOST_LINES = 1_500
# Where a mistake is, in the place of the @ below, which is a character of names too.
MARK = '\0'

# Lines with one mistake, at the word after @, or after the last word if the line ends with @. T is an existing task, G a group, F a file.
MISTAKES = [
    '@groop /a', 'group@', 'group @a', 'group @/nowhere/a', 'group @G', 'group /new max@', 'group /new @maxx 5M', 'group /new max @5Q',
    'group /new oom.group @2', 'group /new max @1.1234567M', 'group /new min @max1', 'group @/a//b', 'group @/a/', 'group @/a/..', 'group @"/a b', 'group @/new{',
    'group @/new{nothing}', 'group @/new}', 'group @"/new"{x}', 'set @/nowhere max 5M', 'set G @high 5M', 'set G max@', 'set G max 5M @7M', 'set G memory.min @-1',
    'reclaim G@', 'reclaim G @max', 'reclaim G 1p @1p', 'rmdir @/', 'rmdir @/nowhere', 'rmdir G @G', 'task new@', 'task new @on G', 'task new in@', 'task new in @/nowhere',
    'task @write in G', 'task @T in G', 'task @new[3..2] in G', 'task @new[*] in G', 'task @new[ in G', 'task @new[a] in G', 'attach @nobody G', 'attach T @/nowhere',
    'attach T@', 'daemon @now', 'let@', 'let new@', 'let new 5 @6', 'let @"new" 5', 'raw@', 'raw @foo', 'raw cat G@', 'raw 1 write 0 0@', 'raw 1 write 0 0 @256',
    'raw @frames 4', 'raw begin @go', 'raw step @x', 'raw 1 @grow', '@nobody write 1p', 'T@', 'T @grow 1p', 'T write@', 'T write @1025p', 'T write 1p @1p',
    'T write @2p..2p', 'T write @3p..2p', 'T write 0..1p @rnadom 3 seed 1', 'T write @random 3 seed 1', 'T write 0..1p random 3@', 'T write 0..1p random @0 seed 1',
    'T read 0..4p random 3 @sed 1', 'T read 0..4p random 3 seed @4294967296', 'T read random 3 seed@', 'T read @1020p..1025p', 'T read @4p', 'T free @1024p', 'T free @1.5p',
    'T free 0..1p @random 3 seed 1', 'T free @more', 'T fork@', 'T fork @T', 'T fork @read', 'T fork @new[1..2]', 'T exit @now', 'T fread@', 'T fread @nofile', 'T fread F @0..1T',
    'T fread F next@', 'T fwrite F next 1p @1p', 'T fwrite F @all', 'T write until@', 'T write until @dead', 'T write until killed @nobody', 'T write until G@', 'T write until @/nowhere current 1M',
    'T write until G @anon 1M', 'T write until G current@', '@T[9999] read', '@memory 1M', '@file new 1M', '@page 4K', '@write 1p', '@end', 'repeat@|end', 'repeat @x|end',
    'repeat @1000001|end', 'repeat 2 as@|end', 'repeat 2 @is i|end', 'repeat i in@|end', 'repeat 2 until@|end', 'repeat 2 until killed@|end', 'repeat 2 until killed @nobody|end',
    'repeat 2 until killed T|T write @until killed|end', 'repeat 2 until killed T|repeat 2 @until killed T|end|end', '@repeat 2|T read', '@together|T read', 'together @now|end',
    'together|T @exit|end', 'together|T @fork new|end', 'together|T write @until killed|end', 'together|repeat 2 @until killed T|daemon|end|end', 'together|@show|end',
    'together|@let new 5|end', 'together|@together|daemon|end|end', 'together|repeat 2|@together|daemon|end|end|end', 'together|repeat 2|@group /new|end|end', 'repeat 2|T read|end @2',
    'repeat 3 as i|T read 0..1p|set G max @{i}Q|end', 'repeat i in 1 2 x|set G max @{i}|end', 'repeat 2|group /new{round}|group @/new{round}|end', 'show @/', 'show @/nowhere', 'show G @G/no',
    'show @group', 'expect@', 'expect @everything', 'expect G@', 'expect G @size 5', 'expect G current@', 'expect G current >= @x', 'expect G current @> 5', 'expect G events.oom @5M',
    'expect G @events.high 5', 'expect in <=@', 'expect in 5M @6M', 'expect killed@', 'expect killed @nobody', 'expect alive @nobody', 'expect nobody@', 'expect nobody @alive',
    'expect nobody killed @T', 'expect @/ current 5', 'show|expect @refused EIO', 'daemon|expect refused@', 'expect nobody killed|expect @refused EIO', 'repeat 1|expect @refused EIO|end']
# Those of the header, each with what it needs above it.
HEADER_MISTAKES = [
    'memory@', 'memory @0', 'memory @1T', 'memory @4p.', 'swap @max', 'swap @1T', 'page @5K', 'page @128M', 'watermarks 1p@', 'watermarks @3p 2p', 'watermarks 1p @70000p', 'file@',
    'file new@', 'file new @0', 'file new @1T', 'file twice 1p|file @twice 1p', 'fault@', 'fault @open 1', 'fault read@', 'fault write @0', 'protection @none', 'placement @own',
    'protection plain @recursive', 'memory 1M|@memory 1M', 'placement linux|@placement linux']


class State:
    """What a scenario has made so far."""

    def __init__(self):
        self.groups, self.tasks, self.files, self.lets, self.used, self.families, self.homes = [], [], [], [], 0, [], set()


class Writer:
    def __init__(self, seed):
        self.random, self.state = random.Random(seed), State()
        self.header, self.chunks, self.states = [], [], []

    def pick(self, *choices):
        choice = self.random.choice(choices)
        return choice() if callable(choice) else choice

    def chance(self, part):
        return self.random.random() < part

    # Words.

    def size(self, most=8):
        n = self.random.randint(0, most)
        return self.pick(f'{n}p', f'{n}p', f'{n * self.kib}K', f'{n * self.kib * 1024}', f'{n * self.kib // 4}.{self.pick("5", "25", "000001")}K', f'{n * self.kib / 1024:.3f}M', *self.let_sizes())

    def let_sizes(self):
        return [f'{{{name}}}' for name, kind in self.state.lets if kind == 'size']

    def worded(self, kind, word):
        """The word, or the {NAME} of a `let` of its kind."""
        return f'{{{kind}}}' if (kind, kind) in self.state.lets and self.chance(0.3) else word

    def part(self, most=12):
        a = self.random.randint(0, most - 1)
        b = self.random.randint(a + 1, most)
        text = self.pick(f'{a}p..{b}p', f'{a}..{b}p' if a == 0 else f'{a}p..{b}p', f'{a * self.kib}K..{b * self.kib}K', f'{a * self.kib}.5K..{b * self.kib}.25K')
        return text

    def drawing(self):
        return f' random {self.random.randint(1, 9)} seed {self.pick(0, 1, 7, 4294967295, self.random.randint(0, 1 << 31))}'

    def group(self):
        return self.random.choice(self.state.groups)

    def leaf(self):
        """A group that may have tasks, which is one without groups below it."""
        leaves = [group for group in self.state.groups if not any(other.startswith(group + '/') for other in self.state.groups)]
        path = self.random.choice(leaves)
        self.state.homes.add(path)
        return path

    def task(self):
        """One task, or several."""
        tasks = self.state.tasks
        if self.state.families and self.chance(0.3):
            name, first, last = self.random.choice(self.state.families)
            return self.pick(f'{name}[*]', f'{name}[{first}..{last}]', f'{name}[{last}]')
        return self.random.choice(tasks)

    def one(self):
        return self.random.choice(self.state.tasks)

    def condition(self, own):
        return self.pick(*(['killed'] if own else []), f'killed {self.one()}', f'{self.group()} current {self.size(20)}')

    # Lines.

    def access(self):
        task, kind = self.task(), self.random.randint(0, 9)
        if kind < 3:
            return f'{task} write ' + self.pick(self.size, self.size, self.part, lambda: self.part() + self.drawing())
        if kind < 5:
            return f'{task} {self.worded("act", "read")}' + self.pick('', '', lambda: ' ' + self.part(), lambda: self.drawing(), lambda: ' ' + self.part() + self.drawing())
        if kind < 6 or not self.state.files:
            return f'{task} free' + self.pick('', lambda: ' ' + self.size(3), lambda: ' ' + self.part())
        name = self.random.choice(self.state.files)
        return f'{task} {self.pick("fread", "fwrite")} {name}' + self.pick('', '', lambda: ' ' + self.part(3), self.drawing, lambda: ' ' + self.part(3) + self.drawing(), lambda: f' next {self.size()}', lambda: f' next {self.size()}')

    def key(self):
        key = self.pick('max', 'min', 'low', 'oom.group')
        value = self.pick('0', '1') if key == 'oom.group' else self.pick('max', lambda: self.size(16), lambda: self.size(40), lambda: self.size(40))
        return f'{self.pick("", "", "memory.")}{key if key == "oom.group" else self.worded("key", key)} {value}'

    def new_group(self):
        name = self.pick(*PLAIN_NAMES, *ODD_NAMES)
        parents = [group for group in self.state.groups if group.count('/') < 4 and (group not in self.state.homes or self.chance(0.02))]
        path = (self.random.choice(parents) if parents and self.chance(0.5) else '') + '/' + name
        self.state.groups.append(path)
        return f'group {path}' + ''.join(f' {self.key()}' for _ in range(self.pick(0, 0, 1, 1, 2, 4)))

    def new_task(self):
        name = self.pick(*TASK_NAMES) + self.pick('', str(self.random.randint(0, 99)))
        path, kind = '/' if self.chance(0.05) else self.leaf(), self.random.randint(0, 3)
        if kind == 0:
            first = self.random.randint(0, 3)
            last = first + self.random.randint(0, 3)
            self.state.families.append((name, first, last))
            self.state.tasks += [f'{name}[{number}]' for number in range(first, last + 1)]
            return f'task {name}[{first}..{last}] in {path}'
        name += '[5]' if kind == 1 else ''
        self.state.tasks.append(name)
        return f'task {name} in {path}'

    def shell(self):
        kind = self.random.randint(0, 7)
        if kind < 2:
            return f'set {self.worded("group", self.group())} {self.key()}'
        if kind == 2:
            return f'reclaim {self.pick("/", self.group)} {self.size()}'
        if kind == 3:
            return f'attach {self.task()} {self.leaf()}'
        if kind == 4:
            empty = [group for group in self.state.groups if group not in self.state.homes]
            path = self.random.choice(empty) if empty and self.chance(0.9) else self.group()
            self.state.groups.remove(path)
            return f'rmdir {path}'
        if kind == 5:
            return self.pick('raw 1 read 0 0', 'raw begin 1 write 0 0 1|raw finish 1', 'raw begin daemon|raw finish daemon', 'raw go', 'raw lowprot / "/a"')
        if kind == 6:
            child = f'child{self.random.randint(0, 999)}' + self.pick('', '[1]', '[2]')
            self.state.tasks.append(child)
            return f'{self.one()} fork {child}'
        return 'daemon'

    def exit(self):
        """A task ends, and mostly does nothing more."""
        task = self.one()
        if len(self.state.tasks) > 1 and self.chance(0.9):
            self.state.tasks.remove(task)
            self.state.families = [family for family in self.state.families if not task.startswith(family[0] + '[')]
        return f'{task} exit'

    def look(self):
        kind = self.random.randint(0, 9)
        if kind < 2:
            return 'show' + self.pick('', lambda: ' ' + self.worded('group', self.group()), lambda: f' {self.group()} {self.group()}')
        if kind < 4:
            return 'mark' + self.pick('', ' a phase', ' of "two # words"  and  more')
        operator = self.pick('', '= ', '>= ', '<= ')
        return 'expect ' + self.pick(
            lambda: f'{self.group()} {self.pick("current", "anon", "file")} {operator}{self.size(20)}', lambda: f'{self.pick("in", "out", "dropped")} {operator}{self.size(20)}',
            lambda: f'{self.group()} events.{self.pick("low", "max", "oom", "oom_kill", "oom_group_kill")} {operator}{self.random.randint(0, 5)}',
            lambda: f'killed {self.one()} {self.one()}', lambda: f'alive {self.one()}', 'nobody killed')

    def let(self):
        if self.chance(0.3) and self.state.groups:
            kind, word = self.pick(('group', self.group()), ('key', self.pick('min', 'low')), ('act', self.pick('read', 'free')))
            self.state.lets = [let for let in self.state.lets if let[0] != kind] + [(kind, kind)]
            return f'let {kind} {word}'
        name = self.pick('n', 'size', 'max', 'ROOM')
        self.state.lets.append((name, 'size'))
        return f'let {name} {self.random.randint(1, 9)}{self.pick("p", "K")}'

    def repeat_head(self):
        kind = self.random.randint(0, 4)
        if kind == 0:
            self.state.lets.append(('i', 'size'))
            return 'repeat i in ' + ' '.join(self.pick('1p', '2p', '5K', '3p') for _ in range(self.random.randint(1, 3)))
        count = self.pick('0', '1', '2', '2', '3', '03')
        self.state.lets.append(('round', 'count'))
        return f'repeat {count} as {self.pick("i", "n", "turn")}' if kind == 1 else f'repeat {count}'

    def block(self, depth=0):
        lets = list(self.state.lets)
        if self.chance(0.4):
            lines = ['together']
            for _ in range(self.random.randint(1, 4)):
                lines += self.pick(lambda: [self.access()], lambda: [self.access()], lambda: ['daemon'], lambda: [f'reclaim {self.group()} {self.size(2)}'], self.small_repeat)
        else:
            lines = [self.repeat_head()]
            if lines[0].startswith('repeat 0') and not lines[0].startswith('repeat 03') and self.chance(0.5):
                lines += [self.pick('no such line', 'group /nowhere/a max', 'show {nothing}', 'let', 'memory 5M', 'expect refused EIO')]
            if depth == 0 and self.chance(0.15):
                lines[0] += f' until {self.condition(False)}'
            for _ in range(self.random.randint(0, 3)):
                lines += self.pick(*[lambda: [self.access()]] * 3, *[lambda: [self.look()]] * 2, lambda: [self.let()], lambda: ['daemon'], lambda: self.made_in_round(),
                                   *[lambda: self.block(depth + 1)] * (depth < 2))
        self.state.lets = lets
        return [lines[0]] + ['  ' + line for line in lines[1:]] + ['end']

    def made_in_round(self):
        """A task or a group with the round in its name. In an outer repeat the inner round comes again, and the lines are left out."""
        self.state.used += 1
        name = f'r{self.state.used}'
        return [f'task {name}[{{round}}] in {self.leaf()}', f'{name}[{{round}}] write {self.size(3)}', f'{name}[*] read'] if self.chance(0.6) else [f'group /{name}-{{round}} {self.key()}']

    def small_repeat(self):
        lets = list(self.state.lets)
        lines = [self.repeat_head()] + ['  ' + self.pick(self.access, 'daemon') for _ in range(self.random.randint(1, 2))] + ['end']
        self.state.lets = lets
        return lines

    def chunk(self):
        """Some lines that go together."""
        kind = self.random.randint(0, 19)
        if kind < 3 or not self.state.groups:
            return [self.new_group()]
        if kind < 5 or not self.state.tasks:
            return [self.new_task()]
        if kind < 9:
            return [self.access()]
        if kind < 11:
            return [self.look()]
        if kind < 13:
            return [line for line in self.shell().split('|')]
        if kind == 13:
            return [self.let()]
        if kind == 14:
            return [self.pick(self.exit, lambda: f'{self.one()} write until {self.condition(True)}', 'daemon')]
        if kind == 15:
            return [self.pick(self.access, lambda: f'reclaim {self.group()} {self.size(5)}'), f'expect refused {self.pick("EIO", "EAGAIN", "ESRCH")}']
        return self.block()

    def write_header(self):
        self.kib = self.pick(4, 4, 16, 64, 1024)
        lines = ['file ' + name + f' {self.random.randint(3, 9)}p' for name in self.random.sample(['data', '"a b"', '_xf', 'log.1', '/var/log/a'], self.random.randint(0, 3))]
        self.state.files = [line.rsplit(' ', 1)[0].removeprefix('file ') for line in lines]
        lines += [f'memory {self.random.randint(12, 64)}p'] * self.chance(0.9) + [f'swap {self.size(30)}'] * self.chance(0.7)
        lines += ['watermarks 2p 5p'] * self.chance(0.5) + [f'fault {self.pick("read", "write")} {self.random.randint(1, 20)}'] * self.chance(0.2)
        lines += [f'protection {self.pick("recursive", "plain")}'] * self.chance(0.3) + [f'placement {self.pick("linux", "plain")}'] * self.chance(0.3)
        lines += [self.let()] * self.chance(0.4)
        if self.kib != 4 or self.chance(0.3):
            lines.append('page ' + (f'{self.kib}K' if self.kib < 1024 else self.pick('1M', '1024K', '1.0M')))
        self.random.shuffle(lines)
        self.header = lines

    def dressed(self, line):
        """The line with spaces, tabs and comments, as people write them."""
        if self.chance(0.1):
            line = line.replace(' ', self.pick('  ', '\t', ' \t '), 1) if '"' not in line else line
        if self.chance(0.1):
            line += self.pick('  # a comment', ' #', '# right behind "a word', '\t')
        return line

    def text(self, chunks):
        return ''.join(f'{line}\n' for line in self.header + [line for chunk in chunks for line in chunk])

    def expansion(self, chunks):
        """The expansion of the scenario; None if it has a fault or is too long."""
        try:
            expansion = Expansion(read_scenario(self.text(chunks).encode()))
        except Fault:
            return None
        return expansion if len(expansion.entries) <= MOST_LINES else None

    def write(self, chunks=16):
        self.write_header()
        while self.expansion([]) is None:
            self.write_header()
        tries = 0
        while len(self.chunks) < chunks and tries < 200:
            tries += 1
            before = copy.deepcopy(self.state)
            made = [self.dressed(line) for line in self.chunk()]
            expansion = self.expansion(self.chunks + [made])
            # Few scenarios have several lists with `until`, since a script ends with the first.
            if expansion is None or expansion.until and len(self.chunks) < chunks - 4 and self.chance(0.8) and not self.open_until():
                self.state = before
                continue
            self.chunks.append(made)
            self.states.append(copy.deepcopy(self.state))
        return self.text(self.chunks)

    def open_until(self):
        return self.expansion(self.chunks).until

    # Mistakes.

    def plant(self):
        """The text with one mistake, and where it is."""
        if self.chance(0.15):
            at, lines = self.random.randint(0, len(self.header)), self.random.choice(HEADER_MISTAKES).replace('@', MARK).split('|')
            first = [line for line in self.header if line.split()[0] != lines[-1].replace(MARK, '').split()[0]]
            lines = first[:at] + lines + first[at:] + [line for chunk in self.chunks for line in chunk]
        else:
            at = self.random.randint(1, len(self.chunks))
            state = self.states[at - 1]
            mistake = self.random.choice(MISTAKES).replace('@', MARK)
            if not state.tasks and 'T' in mistake or not state.groups and 'G' in mistake or not state.files and 'F' in mistake:
                return None
            words = [{'T': state.tasks, 'G': state.groups, 'F': state.files}.get(mark) for mark in 'TGF']
            for mark, known in zip('TGF', words):
                if known:
                    name = self.random.choice(known)
                    mistake = '|'.join(' '.join(word.replace(mark, name) if word.strip(MARK).split('/')[0].split('[')[0] == mark else word
                                                for word in line.split(' ')) for line in mistake.split('|'))
            indent, lines = 0, []
            for line in mistake.split('|'):
                indent -= line.strip(MARK).startswith('end') and indent > 0
                lines.append('  ' * indent + line)
                indent += line.strip(MARK).startswith(('repeat', 'together'))
            chunks = self.chunks[:at] + [lines] + self.chunks[at:]
            lines = self.header + [line for chunk in chunks for line in chunk]
        number = next(number for number, line in enumerate(lines, 2) if MARK in line)
        place = f'{number}:{lines[number - 2].index(MARK) + 1}'
        return f'# fault {place}\n' + ''.join(f'{line}\n' for line in lines).replace(MARK, ''), place


def fault_at(text):
    try:
        Expansion(read_scenario(text.encode()))
    except Fault as fault:
        return f'{fault.line}:{fault.column}'
    return None


def scenarios(count, seed, faulty):
    """Random scenarios, as bytes; with one mistake each, if they are to be faulty."""
    for number in range(1, count + 1):
        writer = Writer(f'{seed} {number}')
        text = writer.write(8 if faulty else 16)
        while faulty:
            planted = writer.plant()
            # A mistake that comes to stand where it is none, or is not the first to be found, is planted elsewhere.
            if planted and fault_at(planted[0]) == planted[1]:
                text = planted[0]
                break
        if writer.chance(0.1):
            text = text.replace('\n', '\r\n')
        yield text.encode()


def main():
    parser = argparse.ArgumentParser(description='Writes random scenarios.')
    parser.add_argument('count', type=int, metavar='N')
    parser.add_argument('seed', type=int, metavar='SEED')
    parser.add_argument('directory', type=pathlib.Path, metavar='DIRECTORY')
    parser.add_argument('--faulty', action='store_true', help='plant one mistake in each')
    options = parser.parse_args()
    options.directory.mkdir(parents=True, exist_ok=True)
    for number, data in enumerate(scenarios(options.count, options.seed, options.faulty), 1):
        (options.directory / f'{number:04}.scenario').write_bytes(data)
    return 0


if __name__ == '__main__':
    sys.exit(main())
