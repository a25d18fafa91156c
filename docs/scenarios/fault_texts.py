"""What is said of a faulty word of a scenario: what is wrong, and what to write."""
import re

UNITS = {'': 1, 'K': 1 << 10, 'M': 1 << 20, 'G': 1 << 30, 'T': 1 << 40}
COMMANDS = ('group set reclaim rmdir task attach daemon let raw show mark expect repeat together end memory swap page watermarks file fault protection '
            'placement').split()
ACTS = ('write', 'read', 'free', 'fork', 'exit', 'fread', 'fwrite')
OF_SCRIPTS = ('frames', 'trace', 'recursiveprot', 'cat', 'prot', 'lowprot', 'begin', 'step', 'finish', 'go')
SCRIPT_HINT = ' (this looks like a script: use "memcgrun schedule")'
NO_TASK = 'there is no such task'
EXPECTED_IN = 'expected "in" here, as in: task NAME in /GROUP'
NOT_A_PART = 'not a part; write FROM..TO, as 0..5M'
TOO_LARGE = 'too large; a size is at most 1048576T or 4294967295p'
MOST_BYTES, MOST_PAGES = 1 << 60, (1 << 32) - 1
MOST_SUGGESTED = 1_000


# --- The nearest word --------------------------------------------------------------------------------------------------------------------


def edits(one, other):
    """How many letters are to be put in, left out, replaced, or swapped with the next one, each place once."""
    rows = [list(range(len(other) + 1))]
    for i, a in enumerate(one, 1):
        row = [i]
        for j, b in enumerate(other, 1):
            best = min(rows[-1][j] + 1, row[-1] + 1, rows[-1][j - 1] + (a != b))
            if i > 1 and j > 1 and a == other[j - 2] and one[i - 2] == b:
                best = min(best, rows[-2][j - 2] + 1)
            row.append(best)
        rows.append(row)
    return rows[-1][-1]


def nearest(word, known):
    """The first of the nearest words, if one is at most two edits away, and less than half of the word's letters."""
    counts = [(edits(word, other), at) for at, other in enumerate(known)]
    near = [pair for pair in counts if pair[0] <= 2 and 2 * pair[0] < len(word)]
    return known[min(near)[1]] if near else None


def with_near(text, near):
    return f'{text}; did you mean {near}?' if near else text


def expected(word, said, known):
    if len(known) < 2:
        return f'expected {said}'
    if word.text in known:
        return f'expected {said}; write {word.text} without quotes'
    return with_near(f'expected {said}', nearest(word.text, known))


def shown_task(name, index, language):
    shown = f'"{name}"' if name in language or re.search(r'[ \t#{}\[\]]', name) else name
    return shown if index is None else f'{shown}[{index}]'


def no_task(word, tasks, begins, language):
    """`tasks` are the names and indices of those so far; `begins` says whether the word is the first of its line."""
    if any(name == word.source for name, _ in tasks):
        return with_near(NO_TASK, f'{word.source}[*]')
    known = [shown_task(name, index, language) for name, index in list(tasks)[:MOST_SUGGESTED]]
    return with_near(NO_TASK, nearest(word.source, known + COMMANDS * begins))


def no_group(path, groups):
    return with_near('there is no such group', nearest(path, groups))


def no_parent(path, groups):
    parent = path.rpartition('/')[0]
    near = nearest(parent, groups)
    return f'its parent {parent} is not there; ' + (f'did you mean {near}?' if near else f'put "group {parent}" above this line')


# --- Sizes -------------------------------------------------------------------------------------------------------------------------------


def size_parts(text):
    """The number of a size and its unit; nothing if it isn't one by its form."""
    match = re.fullmatch(r'([0-9]+)(?:(p)|(\.[0-9]{1,6})?([KMGT]?))', text)
    return match and (match[1] + (match[3] or ''), match[2] or match[4] or '')


def is_too_large(text):
    parts = size_parts(text)
    if not parts:
        return False
    number, unit = parts
    whole, _, places = number.partition('.')
    if unit == 'p':
        return int(whole) > MOST_PAGES
    return (int(whole) * 10**6 + int(f'{places:0<6}')) * UNITS[unit] // 10**6 > MOST_BYTES


def size_meant(text):
    """The text with one letter as its unit, if that makes it a size."""
    match = re.fullmatch(r'(.*?)(?:[Bb]|([KMGTPkmgtp])(?:B|b|i|iB|ib)?)?', text)
    letter = (match[2] or '').upper() if match else ''
    size = match and match[1] + ('p' if letter == 'P' else letter)
    return size if size and size_parts(size) and not is_too_large(size) else None


def not_a_size(text, may_be_part):
    begin, dots, end = text.partition('..')
    if may_be_part and dots:
        if is_too_large(begin) or is_too_large(end):
            return TOO_LARGE
        meant = size_meant(begin), size_meant(end)
        return 'not a part; write {}..{}'.format(*meant) if all(meant) else NOT_A_PART
    if is_too_large(text):
        return TOO_LARGE
    return 'not a size; write ' + (size_meant(text) or '4096, 300M, 1.5G or 7p (pages)')


def shown_bytes(count):
    unit = next(unit for unit in ('T', 'G', 'M', 'K', '') if count >= UNITS[unit] and count % UNITS[unit] == 0)
    return f'{count // UNITS[unit]}{unit}'


def page_for(count, pages):
    """The smallest page of which so many have at least these bytes."""
    return next((size for size in (4096 << power for power in range(15)) if size * pages >= count), None)


def wrong_page(exact):
    return f'not the size of a page; write {shown_bytes(page_for(exact, 1) or 64 << 20)}, or another power of two from 4K to 64M'


def too_little(page):
    return f'less than a page; write at least {shown_bytes(page)}'


def larger(size):
    return f'; write "page {shown_bytes(size)}" in the header, or a smaller size' if size else '; write a smaller size'


def too_much_memory(text, exact, page, most):
    needed = None if text.endswith('p') else page_for(exact, most)
    return f'more than {most:,} pages of {shown_bytes(page)}, which are {shown_bytes(page * most)}' + larger(needed)


def too_much_of_files(text, exact, page, most, before):
    needed = None if text.endswith('p') else page_for(before * page + exact, most)
    return f'more than {most:,} pages of {shown_bytes(page)} for the swap and all files' + larger(needed)


def too_much_at_once(page, most):
    return f'more than {most:,} pages of {shown_bytes(page)} in one line; write a smaller size'


# --- Scripts -----------------------------------------------------------------------------------------------------------------------------


def is_of_script(source):
    return source in OF_SCRIPTS or re.fullmatch('[0-9]+', source) is not None


def looks_like_script(lines, fault):
    """Whether a scenario of these lines with this fault looks like a script. Each line has its number and the words as they are written."""
    number, first = lines[0]
    if is_of_script(first[0]) or first[0] == 'set' and number == fault.line:
        return True
    words = dict(lines).get(fault.line, [''])
    if NO_TASK in fault.text and fault.text.startswith(f'{words[0]}: '):
        return is_of_script(words[0])
    return fault.text.endswith(EXPECTED_IN) and re.fullmatch('[0-9]+', words[1]) is not None and words[2].startswith('/')
