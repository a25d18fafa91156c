"""The text of scenarios: words, lines, blocks, numbers, sizes and names; and the lines of scripts that `raw` may give."""
import functools
import re
from dataclasses import dataclass, field, replace
from fractions import Fraction

from fault_texts import SCRIPT_HINT, UNITS, expected, is_too_large, looks_like_script, not_a_size, size_parts

U32, U64 = 1 << 32, 1 << 64

NOT_A_PATH = 'not a path; write one like /a/b'
HEADER = ('memory', 'swap', 'page', 'watermarks', 'file', 'fault', 'protection', 'placement')
KEYS = ('max', 'min', 'low', 'oom.group')
EVENTS = ('low', 'max', 'oom', 'oom_kill', 'oom_group_kill')
OPERATORS = ('=', '>=', '<=')
# The words that have a meaning somewhere in the language. Without quotes, none of them is the name of a task.
LANGUAGE = set(HEADER) | set(KEYS) | {f'memory.{key}' for key in KEYS} | {f'events.{event}' for event in EVENTS} | set(OPERATORS) | set(
    'read write recursive plain linux let group set reclaim rmdir task in attach daemon raw free fork exit fread fwrite next random seed repeat as '
    'until together end killed current anon out dropped alive nobody refused show mark expect'.split())


class Fault(Exception):
    """What is wrong with a scenario, and where."""

    def __init__(self, line, column, text):
        super().__init__(f'{line}:{column}: {text}')
        self.line, self.column, self.text = line, column, text


# --- The text: words, lines and blocks ---------------------------------------------------------------------------------------------------


@dataclass(frozen=True)
class Word:
    """A word, with its quotes removed, and where it is. `quoted` has a `"` for each character that was in quotes, and a space for each other."""

    text: str
    quoted: str
    has_quotes: bool
    source: str
    line: int = 0
    column: int = 1
    end: int = 1
    # As it is written, before its names are filled.
    written: str = ''

    @property
    def plain(self):
        """The text, if the word can be one of the language."""
        return None if self.has_quotes else self.text

    def outside(self, characters):
        """The places of these characters outside of quotes."""
        return [at for at, (c, quoted) in enumerate(zip(self.text, self.quoted)) if c in characters and quoted == ' ']

    def fault(self, text):
        shown = self.source if self.written in ('', self.source) else f'{self.written} ({self.source})'
        return Fault(self.line, self.column, f'{shown}: {text}')


@dataclass
class Line:
    number: int
    words: list


@dataclass
class Block:
    head: Line
    items: list = field(default_factory=list)


def read_words(text, number):
    words, at = [], 0
    while at < len(text) and text[at] != '#':
        if text[at] in ' \t':
            at += 1
            continue
        begin, characters, marks, inside = at, [], [], False
        while at < len(text) and (inside or text[at] not in ' \t#'):
            if text[at] == '"':
                inside = not inside
            else:
                characters.append(text[at])
                marks.append('"' if inside else ' ')
            at += 1
        source = text[begin:at]
        if inside:
            raise Fault(number, begin + 1, 'a quote is not closed')
        words.append(Word(''.join(characters), ''.join(marks), '"' in source, source, number, begin + 1, at + 1, source))
    return words


def read_lines(data):
    """The lines that have words."""
    rows = data.split(b'\n')
    for number, row in enumerate(rows, 1):
        if number < len(rows):
            row = row.removesuffix(b'\r')
        try:
            text = row.decode('utf-8')
        except UnicodeDecodeError as error:
            raise Fault(number, len(row[:error.start].decode('utf-8')) + 1, 'the line is not UTF-8') from None
        if words := read_words(text, number):
            yield Line(number, words)


def read_scenario(data):
    """The lines and blocks of a scenario. Blocks are found by the words as they are written, before any name stands for another word."""
    top = Block(None)
    open_blocks = [top]
    for line in read_lines(data):
        first = line.words[0]
        if first.plain == 'end':
            if len(open_blocks) == 1:
                raise Fault(line.number, first.column, 'no block is open')
            if len(line.words) > 1:
                raise Fault(line.number, line.words[1].column, 'one word too many')
            open_blocks.pop()
        elif first.plain in ('repeat', 'together'):
            block = Block(line)
            open_blocks[-1].items.append(block)
            open_blocks.append(block)
        else:
            open_blocks[-1].items.append(line)
    if len(open_blocks) > 1:
        raise Fault(open_blocks[1].head.number, open_blocks[1].head.words[0].column, 'this block has no end')
    return top.items


def told(fault, data):
    """The line and the column of a fault of this scenario, and what is said of it."""
    try:
        lines = [(line.number, [word.source for word in line.words]) for line in read_lines(data)]
        read_scenario(data)
    except Fault:
        return str(fault)
    return str(fault) + (SCRIPT_HINT if lines and looks_like_script(lines, fault) else '')


def fill(word, scopes):
    """The word, with each {NAME} replaced."""
    if word.has_quotes:
        if word.outside('{}'):
            raise word.fault('a brace that belongs to no {NAME}')
        return word
    parts = re.split(r'\{([^{}]*)\}', word.text)
    if len(parts) == 1 and '{' not in word.text and '}' not in word.text:
        return word
    text = quoted = source = ''
    has_quotes = False
    for at, part in enumerate(parts):
        if at % 2 == 0:
            if '{' in part or '}' in part:
                raise word.fault('a brace that belongs to no {NAME}')
            value = Word(part, ' ' * len(part), False, part)
        else:
            value = next((scope[part] for scope in reversed(scopes) if part in scope), None)
            if value is None:
                raise word.fault('nothing has this name here')
        text, quoted, source, has_quotes = text + value.text, quoted + value.quoted, source + value.source, has_quotes or value.has_quotes
    return replace(word, text=text, quoted=quoted, source=source, has_quotes=has_quotes)


class Words:
    """The words of a line, read from left to right."""

    def __init__(self, words):
        self.words, self.at = words, 0

    def __str__(self):
        return ' '.join(word.source for word in self.words)

    def peek(self):
        return self.words[self.at] if self.at < len(self.words) else None

    def ahead(self):
        """The next word, if it can be one of the language."""
        word = self.peek()
        return word.plain if word else None

    def next(self):
        word = self.peek()
        if word is None:
            last = self.words[-1]
            raise Fault(last.line, last.end, 'a word is missing')
        self.at += 1
        return word

    def one_of(self, words, said=None):
        word = self.next()
        if word.plain not in words:
            raise word.fault(expected(word, said or ' or '.join(words), words))
        return word.plain

    def rest(self):
        """All words that are left, at least one."""
        return [self.next()] + list(iter(self.next_or_none, None))

    def next_or_none(self):
        word = self.peek()
        self.at += word is not None
        return word

    def done(self):
        if self.peek():
            raise self.peek().fault('one word too many')


# --- Numbers, sizes and names ------------------------------------------------------------------------------------------------------------


def number_of(word, low, high):
    digits = word.text.lstrip('0') or '0'
    if not re.fullmatch('[0-9]+', word.plain or '') or len(digits) > 20 or not low <= int(digits) <= high:
        raise word.fault('not a number, or out of its bounds')
    return int(digits)


@functools.lru_cache(1024)
def exact_size(text, page):
    """Bytes, exactly; None if the text is no size."""
    parts = size_parts(text)
    if not parts or is_too_large(text):
        return None
    number, unit = parts
    return Fraction(number) * (page if unit == 'p' else UNITS[unit])


def size_of(word, text, page, is_part=False):
    """The bytes of a size, which is the word or an end of a part."""
    size = None if word.has_quotes else exact_size(text, page)
    if size is None:
        raise word.fault(not_a_size(word.text, is_part))
    return size


def names_of(word):
    """The names of a path, from the root down."""
    if not word.text.startswith('/'):
        raise word.fault(NOT_A_PATH)
    if word.text == '/':
        return ()
    names = tuple(word.text[1:].split('/'))
    if any(name in ('', '.', '..') for name in names):
        raise word.fault(NOT_A_PATH)
    return names


def is_path(word):
    return word.text.startswith('/')


def name_and_index(word, ranges=True):
    """The name of tasks, and which of them: None, a pair of numbers, or '*'."""
    opened, closed = word.outside('['), word.outside(']')
    text, index = word.text, None
    if opened or closed:
        match = re.fullmatch(r'(\*)|([0-9]{1,10})(?:\.\.([0-9]{1,10}))?', text[opened[0] + 1:-1]) if opened else None
        if not match or len(opened) > 1 or closed != [len(text) - 1]:
            raise word.fault('not a name')
        text = text[:opened[0]]
        every, first, last = match.groups()
        index = '*' if every else (int(first), int(last or first))
        if not ranges and (every or last):
            raise word.fault('not a name')
        if not every and index[0] > index[1]:
            raise word.fault('not a name')
    if not text:
        raise word.fault('not a name')
    if not word.has_quotes and text in LANGUAGE:
        raise word.fault('not a name')
    return text, index


def task_name(name, index):
    return name if index is None else f'{name}[{index}]'


def splitmix(seed, i):
    z = (seed + i * 0x9E3779B97F4A7C15) % U64
    z = (z ^ (z >> 30)) * 0xBF58476D1CE4E5B9 % U64
    z = (z ^ (z >> 27)) * 0x94D049BB133111EB % U64
    return z ^ (z >> 31)


def drawn(first, end, count, seed):
    return [first + (((splitmix(seed, i) >> 32) * (end - first)) >> 32) for i in range(1, count + 1)]


# --- Lines of a script, after `raw` -----------------------------------------------------------------------------------------------------

# The words of a script's lines, and what follows each: n a number, b a byte, p a path, f a name, w any word, a an actor.
RAW_LINES = {'group': 'p', 'rmdir': 'p', 'task': 'np', 'attach': 'np', 'set': 'pww', 'cat': 'pw', 'prot': 'pp', 'lowprot': 'pp', 'daemon': ''}
RAW_TASK_LINES = {'write': 'nnb', 'read': 'nn', 'fwrite': 'fnnb', 'fread': 'fnn', 'fork': 'n', 'free': 'n', 'exit': ''}
RAW_PARTS = {'step': 'a', 'finish': 'a', 'go': ''}
RAW_NAME = r'(?!\.{1,2}(?:/|$))[A-Za-z0-9._-]{1,32}'


def check_raw(words):
    """Raises a fault unless the words are a line of a script that may come after its header."""
    words = Words(words)
    begun = words.peek().text == 'begin'
    if begun:
        words.next()
    word = words.next()
    if re.fullmatch('[0-9]+', word.text):
        number_in_raw(word, U32 - 1)
        kinds = RAW_TASK_LINES.get(words.next().text)
        word = words.words[words.at - 1]
    else:
        kinds = (RAW_LINES if begun else RAW_LINES | RAW_PARTS).get(word.text)
    if kinds is None:
        raise word.fault('not a line of a script')
    for kind in kinds:
        word = words.next()
        if kind in 'nb':
            number_in_raw(word, 255 if kind == 'b' else U32 - 1)
        elif kind == 'a' and word.text not in ('shell', 'control', 'daemon'):
            number_in_raw(word, U32 - 1)
        elif kind == 'f' and not re.fullmatch(RAW_NAME, word.text) or kind == 'p' and not re.fullmatch(f'/|(?:/{RAW_NAME})+', word.text):
            raise word.fault('not a line of a script')
        elif kind == 'w' and not re.fullmatch(r'[^ \t\n]+', word.text):
            raise word.fault('not a line of a script')
    words.done()


def number_in_raw(word, most):
    if not re.fullmatch('[0-9]+', word.text) or len(word.text.lstrip('0')) > 10 or int(word.text) > most:
        raise word.fault('not a line of a script')
