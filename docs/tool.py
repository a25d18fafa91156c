#!/usr/bin/env python3
"""Prints what the sources say. docs/check uses it too.

    docs/tool.py tables [CRATE]   each definition: what it says and what it excludes
    docs/tool.py laws             each law, in a sentence
    docs/tool.py map [CRATE]      each crate: what it does, what it uses, its source files and its lemmas
    docs/tool.py crates           the picture of the crates, which is docs/crates.svg
    docs/tool.py chain            the crates that have to be proved one after the other, with their lines: the longest such chain
    docs/tool.py cases examples   what the examples and docs/SCRIPTS.md say that is printed, as crates/cases/data/examples.cases
    docs/tool.py cases kernel     what is printed to the scripts that Linux answers too, as crates/cases/data/kernel.cases
    docs/tool.py phrases [PAGE]   the sentences of a page, or of the comments of a NAME.rt, that docs/phrases finds, with what to write instead
    docs/tool.py sample PAGE      ten sentences at random, to be read cold: what does each say, and was it read twice?
    docs/tool.py counts [--all]   how many of them each page has, and how many words; docs/counts keeps what fell, or all
"""
import collections
import glob
import itertools
import os
import random
import re
import sys

sys.dont_write_bytecode = True
sys.path.insert(0, os.path.dirname(os.path.abspath(__file__)))
from cases import answered_lines  # noqa: E402

os.chdir(os.path.dirname(os.path.dirname(os.path.abspath(__file__))))

# ---- definitions

# The files of definitions, about in the order in which they build on each other. Those that no public clause cites are left out.
SPECIFICATIONS = """
    machine/specs/Names.antt machine/specs/Numbers.antt machine/specs/Amounts.antt machine/specs/PageSizes.antt machine/specs/Slots.antt machine/specs/Tree.antt
    machine/specs/Pages.antt machine/specs/Counts.antt machine/specs/Protection.antt machine/specs/Order.antt machine/specs/Tasks.antt
    machine/specs/State.antt machine/specs/Reclaim.antt machine/specs/Victim.antt machine/specs/Access.antt machine/specs/Refusals.antt
    machine/specs/Step.antt machine/specs/Generations.antt machine/specs/Aging.antt machine/specs/Eviction.antt machine/specs/Lists.antt
    machine/specs/History.antt machine/specs/FirstBytes.antt machine/specs/Audit.antt machine/specs/Transfers.antt machine/specs/Call.antt
    machine/specs/Legal.antt machine/specs/Events.antt machine/specs/Control.antt machine/specs/Printed.antt
    block_store/specs/Device.antt pages/specs/Tickets.antt
    book_events/specs/Events.antt book_events/specs/Spots.antt book_events/specs/Replies.antt book/specs/Passes.antt
    turns/specs/Turns.antt driver/specs/Schedule.antt driver/specs/Sinks.antt driver/specs/Traced.antt
    turns/specs/Tickets.antt driver/specs/Hands.antt marks/specs/Logs.antt
    scripts/specs/Words.antt scripts/specs/Forms.antt scripts/specs/Meaning.antt scripts/specs/Header.antt scripts/specs/Context.antt
    scripts/specs/Faults.antt scripts/specs/Script.antt scripts/specs/Work.antt scripts/specs/FaultTexts.antt
    printer/specs/Asked.antt printer/specs/Amounts.antt printer/specs/Prints.antt subcommands/specs/Scripts.antt script_faults/specs/Told.antt
    live/specs/Exchanges.antt live/specs/Passes.antt live/specs/Works.antt live/specs/Shares.antt live/specs/Matching.antt live/specs/Reports.antt live/specs/Crews.antt live/specs/Told.antt live/specs/OneRun.antt live/specs/Looks.antt
    shown_groups/specs/Shown.antt thread_runs/specs/Threads.antt thread_runs/specs/Actors.antt
    expectations/specs/Expected.antt
    book/specs/Looks.antt charts/specs/Watched.antt charts/specs/Phased.antt charts/specs/Listed.antt printer/specs/Paths.antt subcommands/specs/Charted.antt
    call_buffers/specs/Buffers.antt call_buffers/specs/Calls.antt embedding/specs/Asked.antt
    laws/specs/Laws.antt""".split()


def lines_of(path):
    with open(path, encoding="utf-8") as file:
        return file.read().split("\n")[:-1]


def added(text, sign, more):
    return more if text == "" else text + sign + more


class Table:
    """The table of one file of definitions: what its head says, and a row for each definition, `name`, `says`, `excludes`."""

    def __init__(self, path):
        self.path = path
        self.head = ""
        self.rows = []
        self.name = self.others = self.said = ""
        self.read(lines_of("crates/" + path))

    def add_row(self, name, says, excludes=""):
        at = says.find("(Excludes ")
        if at >= 0:
            depth = 0
            for end in range(at, len(says)):
                depth += (says[end] == "(") - (says[end] == ")")
                if depth == 0:
                    break
            excludes = re.sub(r"\.$", "", says[at + 10 : end])
            says = re.sub(r"\.? *$", "", says[:at] + says[end + 1 :])
        self.rows.append((name, says, excludes))

    def end_row(self):
        if self.name:
            self.add_row(self.name + (f" ({self.others})" if self.others else ""), self.said)
        self.name = self.others = self.said = ""

    def read(self, lines):
        at_head, part_of_list, in_record = True, False, False
        comment = item = ""
        for line in lines:
            # The comment at the head of a file, with a line for each of its numbered rules.
            if at_head:
                if re.match(r"--   [0-9]", line):
                    self.head += ("\n" if part_of_list else "\n\n") + line[5:]
                    part_of_list = True
                    continue
                if line.startswith("--    "):
                    self.head += " " + re.sub(r"^-- +", "", line)
                    continue
                if line.startswith("-- "):
                    self.head += ("\n\n" if part_of_list else " ") + line[3:]
                    part_of_list = False
                    continue
                at_head = False
            if line.startswith(("use ", "module ")):
                continue
            # What is above an empty line is in front of no definition, and is said of those that follow.
            if not line.strip(" "):
                if comment:
                    self.end_row()
                    self.add_row("", comment)
                comment, in_record = "", False
                continue
            if line.startswith("-- ---- no public clause cites what follows"):
                break
            if line.startswith("-- ---- "):
                self.end_row()
                self.add_row("", "*" + line[8:] + "*")
                continue
            said = re.match(r" *-- (.*)", line)
            if said:
                if in_record:
                    item = added(item, " ", said[1])
                else:
                    comment = added(comment, " ", said[1])
                continue
            found = re.match(r" *((abbrev|unfoldable) )?pub ((record|data) )?", line)
            if not in_record and found:
                in_record = re.match(r" *pub (record|data) ", line) is not None
                words = line[found.end() :].split()
                # A law is a statement about nothing in particular.
                if self.path.startswith("laws") and line.endswith(" : Type 0") and words[1] == ":":
                    self.end_row()
                    comment = ""
                    continue
                word = f"`{words[0]}`"
                if comment or not self.name:
                    self.end_row()
                    self.name, self.said = word, comment
                else:
                    self.others = added(self.others, ", ", word)
                comment = ""
                continue
            # A field or a case with a comment of its own, and a case of a definition with one.
            if item:
                first = re.sub(r"^ *(pub )?", "", line).split()[0]
                self.said = added(self.said, ". ", f"`{first}`: {item}")
                item = ""
                continue
            if comment:
                self.said = added(self.said, ". ", comment)
                comment = ""
        self.end_row()

    def print(self):
        parts = re.split(r"[/.]", self.path)
        print(f"\n## {parts[0]} {parts[2]}\n\nIn crates/{self.path}.{self.head}")
        if self.rows:
            print("\n| Definition | Says | Excludes |\n|---|---|---|")
        for row in self.rows:
            print("|" + "".join(" " + text.replace("|", "\\|") + " |" if text else " |" for text in row))


def print_tables(crate=None):
    print("# The definitions, one by one\n\nWhat each definition says and what it excludes, in the words of the comment in front of it. Names in brackets follow it and share its comment.")
    for path in SPECIFICATIONS:
        if crate is None or path.startswith(crate + "/"):
            Table(path).print()


# ---- laws, lemmas, crates


def laws():
    """Each law: its name, and what the comment above the function says."""
    found, comment = [], []
    for line in lines_of("crates/laws/src/lib.rt"):
        said = re.match(r"/// ?(.*)", line)
        name = re.match(r"pub fn ([a-z_]+)\(\)", line)
        if said:
            comment.append(said[1])
        elif name:
            found.append((name[1], " ".join(comment).strip()))
            comment = []
        else:
            comment = []
    return found


def print_laws():
    print("# The laws\n\nEach law is the contract of a function of this name in crates/laws/src/lib.rt.\n\n| Law | Says |\n|---|---|")
    for name, says in laws():
        print(f"| `{name}` | {says} |")


def crate_lines():
    """Each crate of crates.txt in its order: its name, and the crates of this list that it uses."""
    found = [re.match(r"([a-z_][a-z0-9_]*)[^:#]*:([^#]*)", line) for line in lines_of("crates.txt")]
    uses = {named[1]: named[2].split() for named in found if named}
    return [(name, [used for used in uses[name] if used in uses]) for name in uses]


def lemma_files(crate):
    """The files of lemmas of a crate, each with the comment at its head."""
    found = []
    for path in sorted(glob.glob(f"crates/{crate}/proofs/*.antt")):
        name = os.path.basename(path)[:-5]
        if name == "Lib":
            continue
        head = []
        for line in lines_of(path):
            if not line.startswith("--"):
                break
            head.append(line[2:].strip())
        found.append((name, " ".join(head)))
    return found


def source_files(crate):
    """The source files of a crate, each with the first paragraph of the comment at its head, or else of the first comment that describes something."""
    found = []
    for path in sorted(glob.glob(f"crates/{crate}/src/*.rt")):
        lines = lines_of(path)
        for sign in ("//!", "///"):
            rest = itertools.dropwhile(lambda line: not line.startswith(sign), lines)
            head = [line[3:].strip() for line in itertools.takewhile(lambda line: line.startswith(sign) and line[3:].strip(), rest)]
            if head:
                break
        found.append((os.path.basename(path), " ".join(head)))
    return found


def first_sentence(crate):
    """What the page of a crate says first."""
    text = " ".join(itertools.takewhile(str.strip, lines_of(f"crates/{crate}/README.md")[2:]))
    return re.split(r"(?<=[.:])\s+(?=[A-Z`])", re.sub(r"\[([^]]*)\]\([^)]*\)", r"\1", text))[0]


def print_map(crate=None):
    if crate is None:
        print("# The crates\n\nEach with its files and its lemmas. What one function alone needs is in a folder, proofs/FILE/TYPE/FUNCTION.")
    for name, uses in crate_lines():
        if crate not in (None, name):
            continue
        print(f"\n## {name}\n\n{first_sentence(name)} It uses {', '.join(uses) or 'no other crate'}.")
        for title, files in (("Source", source_files(name)), ("Lemmas", lemma_files(name))):
            if files:
                print(f"\n| {title} | About |\n|---|---|")
            for file, says in files:
                says = says.replace("|", "\\|")
                print(f"| {file} | {says} |")


def lines_in(crate):
    """How many lines of source, definitions and proofs a crate has."""
    files = [os.path.join(place, name) for part in ("src", "specs", "proofs") for place, _, names in os.walk(f"crates/{crate}/{part}") for name in names]
    return sum(len(lines_of(path)) for path in files if path.endswith((".rt", ".antt")))


def longest_chain():
    """The crates of the chain with the most lines, lowest first, each with its lines. Each of them uses the one before."""
    longest = {}
    for name, uses in crates_below_first():
        below = max((longest[other] for other in uses), key=lambda chain: sum(lines for _, lines in chain), default=())
        longest[name] = (*below, (name, lines_in(name)))
    return max(longest.values(), key=lambda chain: sum(lines for _, lines in chain))


def crates_below_first():
    """Each crate, after those that it uses, with those."""
    uses, found = dict(crate_lines()), {}

    def visit(name):
        if name not in found:
            for other in uses[name]:
                visit(other)
            found[name] = uses[name]

    for name in uses:
        visit(name)
    return found.items()


def print_chain():
    chain = longest_chain()
    for name, lines in chain:
        print(f"{lines:7,} {name}")
    print(f"{sum(lines for _, lines in chain):7,} lines")


# How the picture of the crates is drawn, in pixels. Crates that are tests are left out.
BOX, GAP, ROW, MARGIN = 112, 12, 58, 16
TESTS = {"cases", "acceptance", "streams", "slow_device", "shortages", "leaves", "callers", "computed", "computed_turns"}


def layers():
    """The crates in rows, each above all that it uses; and the lines between them. A line leads to a crate that the upper one uses and does not reach through
    another, with a point in each row between."""
    uses = {name: used for name, used in crate_lines() if name not in TESTS}
    below, depth = {}, {}
    for name, used in uses.items():
        below[name] = set(used).union(*(below[other] for other in used))
        depth[name] = 1 + max((depth[other] for other in used), default=-1)
    direct = {name: [other for other in used if not any(other in below[third] for third in used)] for name, used in uses.items()}
    # A crate is as high as it may be: right below the lowest that uses it.
    for name in reversed(list(uses)):
        users = [other for other in uses if name in direct[other]]
        if users:
            depth[name] = min(depth[user] for user in users) - 1
    rows = [[] for _ in range(max(depth.values()) + 1)]
    for name in uses:
        rows[depth[name]].append(name)
    lines = []
    for name in uses:
        for other in direct[name]:
            points = [(name, other, k) for k in range(depth[name] - 1, depth[other], -1)]
            for point in points:
                rows[point[2]].append(point)
            lines.append([name, *points, other])
    return rows, lines


def room(item):
    return 1 if isinstance(item, str) else 0.25


def place(rows, lines):
    """The place of each crate and point in its row. Lines are short, since each row is sorted by its neighbours many times."""
    width = max(sum(map(room, row)) for row in rows)
    near = {item: [] for row in rows for item in row}
    for line in lines:
        for high, low in zip(line, line[1:]):
            near[high].append(low)
            near[low].append(high)
    at = {}
    for row in rows:
        for k, item in enumerate(row):
            at[item] = (k + 0.5) * width / len(row)
    for turn in range(60):
        for row in rows if turn % 2 else rows[::-1]:
            ideal = {item: sum(at[other] for other in near[item]) / len(near[item]) if near[item] else at[item] for item in row}
            row.sort(key=lambda item: (ideal[item], str(item)))
            # Each is as near to its ideal place as it can be, with room for all.
            for k, item in enumerate(row):
                left = at[row[k - 1]] + (room(row[k - 1]) + room(item)) / 2 if k else room(item) / 2
                at[item] = max(ideal[item], left)
            for k in range(len(row) - 1, -1, -1):
                item = row[k]
                right = at[row[k + 1]] - (room(row[k + 1]) + room(item)) / 2 if k + 1 < len(row) else width - room(item) / 2
                at[item] = min(at[item], right)
    return at, width


def picture():
    """The picture of the crates, as SVG."""
    drawn = []
    draw = drawn.append
    rows, lines = layers()
    at, width = place(rows, lines)
    row_of = {item: k for k, row in enumerate(rows) for item in row}
    height = len(rows) * ROW + 2 * MARGIN - 28
    whole = round(width * (BOX + GAP) + 2 * MARGIN)

    def x(item):
        return round(MARGIN + at[item] * (BOX + GAP))

    def y(item):
        return height - MARGIN - 30 - row_of[item] * ROW

    draw(f'<svg xmlns="http://www.w3.org/2000/svg" width="{whole}" height="{height}" viewBox="0 0 {whole} {height}" font-family="sans-serif" font-size="12">')
    draw("<title>The crates: a line leads down to each crate that the upper one uses</title>")
    draw(f'<rect width="{whole}" height="{height}" fill="#ffffff"/>')
    draw('<g stroke="#9aa7b4" fill="none">')
    for line in lines:
        path = f"M{x(line[0])} {y(line[0]) + 30}"
        for high, low in zip(line, line[1:]):
            top = y(high) + (30 if high == line[0] else 15)
            end = y(low) + (0 if low == line[-1] else 15)
            path += f"C{x(high)} {(top + end) // 2} {x(low)} {(top + end) // 2} {x(low)} {end}"
        draw(f'<path d="{path}"/>')
    draw("</g>")
    for row in rows:
        for name in row:
            if isinstance(name, str):
                draw(f'<rect x="{x(name) - BOX // 2}" y="{y(name)}" width="{BOX}" height="30" rx="4" fill="#eef3f8" stroke="#4d6a87"/>')
                draw(f'<text x="{x(name)}" y="{y(name) + 20}" text-anchor="middle" fill="#12263a">{name}</text>')
    draw("</svg>")
    return "\n".join(drawn) + "\n"


def print_crates():
    print(picture(), end="")


# ---- cases


class Script:
    """A script, without its comments and with what its lines `#> ` expect: `script` has no such lines, and `expected` has them."""

    def __init__(self, path):
        first, *rest = lines_of(path)
        self.title = first[2:]
        self.script, self.expected, self.prints = [], [], []
        for _, line, answers in answered_lines(rest):
            self.script.append(line)
            self.expected += [line, *(f"#> {answer}" for answer in answers)]
            self.prints += answers
        self.on_threads = any(line.startswith("# On threads the same is printed, and `audit ok` behind it.") for line in rest)
        self.checked = f": ok, {len(self.prints)} answer{'' if len(self.prints) == 1 else 's'}"


def script_case(path, name, line=None):
    """A script as a case, named after its file with its first line. `line` is one more line of the case."""
    it = Script(path)
    more = ["-- on threads"] if it.on_threads else []
    return ["", f"== {name}: {it.title}", *([line] if line else []), *it.expected, *more, f"-- checked{it.checked}", "-- prints", *it.prints]


def spans_of(cell):
    return cell.split("`")[1::2]


def fault_cause(said):
    """The cause of a fault of which --explain says this."""
    for pattern, cause in (
        (" is missing", "missing argument"),
        (" is one too many", "extra argument"),
        (" is not a (group|file)'s ", "bad name"),
        (" is (below|above) | is not a number ", "bad number"),
        (" must come before ", "header after commands"),
        (" already has ", "header twice"),
    ):
        if re.search(pattern, said):
            return cause
    return "unknown word"


def row_cases(kind, cells):
    """The cases of a row of docs/SCRIPTS.md. A script's lines are the code spans of its cell, and so is what is printed."""
    if kind == "amounts":
        shown = spans_of(cells[1])
        if len(shown) != 1 or not re.fullmatch(r"[0-9]+|max", shown[0]):
            shown = ["error EINVAL", "max"]
        for amount in spans_of(cells[0]):
            yield ["", f"== SCRIPTS.md: an amount: {amount}", "group /a", f"set /a memory.max {amount}", "cat /a memory.max", "-- prints", *shown]
    elif kind == "explained":
        # A script that is described in other words than its lines is left out.
        if re.sub(r"`[^`]*`|, |then|,| ", "", cells[0]) == "":
            script, said = spans_of(cells[0]), spans_of(cells[1])
            yield ["", f"== SCRIPTS.md: more is said of {cells[0]}", *script, f"-- faults case:{len(script)}: {fault_cause(said[-1])}", f"-- explained {said[0]}", *said[1:]]
    elif kind == "prints":
        yield ["", f"== SCRIPTS.md: {cells[1]}: {cells[0]}", *spans_of(cells[1]), "-- prints", *spans_of(cells[2])]
    else:
        fault = spans_of(cells[1])
        yield ["", f"== SCRIPTS.md: {cells[0]}: {cells[2]}", *spans_of(cells[0]), f"-- faults {fault[0]}", *fault[1:]]


# The tables of docs/SCRIPTS.md whose rows are cases, by their heads.
CASE_TABLES = {
    "| What happens | Script | It prints |": ("prints", 1),
    "| Script | Standard error | Why |": ("faults", 0),
    "| `set /a memory.max` | `cat /a memory.max` |": ("amounts", 0),
    "| Script | The second line |": ("explained", 0),
}


def page_cases():
    table = None
    for line in lines_of("docs/SCRIPTS.md"):
        if line in CASE_TABLES:
            table = CASE_TABLES[line]
        elif not line.startswith("|"):
            table = None
        elif table and "`" in line:
            kind, script = table
            cells = re.sub(r" \|$", "", line[2:]).split(" | ")
            if spans_of(cells[script]):
                yield from row_cases(kind, cells)


def example_cases():
    """What the examples and docs/SCRIPTS.md say that is printed, as cases."""
    lines = ["What the scripts of examples/ and the tables of docs/SCRIPTS.md say. docs/tool.py cases examples writes this file."]
    for path in sorted(glob.glob("examples/*.memcg")):
        lines += script_case(path, os.path.basename(path))
    for case in page_cases():
        lines += case
    return lines


def scripts_below(folder):
    return sorted(os.path.relpath(path, folder) for path in glob.glob(f"{folder}/*/*.memcg"))


def kernel_cases():
    """What memcgrun answers to the scripts of kernel/scripts, without and with --as-linux. One that is answered otherwise then has a case of its own."""
    lines = ["What memcgrun answers to the scripts of kernel/scripts, to which Linux answered too. docs/tool.py cases kernel writes this file."]
    scripts = scripts_below("kernel/scripts")
    otherwise = [name for name in scripts if os.path.exists(f"kernel/as_linux/{name}")]
    for name in scripts:
        if name not in otherwise:
            lines += script_case(f"kernel/scripts/{name}", name, "-- as linux too")
    for name in otherwise:
        lines += script_case(f"kernel/scripts/{name}", name)
    for name in scripts_below("kernel/as_linux"):
        lines += script_case(f"kernel/as_linux/{name}", f"../as_linux/{name}", "-- with --as-linux")
    return lines


CASES = {"examples": example_cases, "kernel": kernel_cases}


def print_cases(theme=None):
    if theme not in CASES:
        sys.exit(f"Usage: docs/tool.py cases {'|'.join(CASES)}")
    print("\n".join(CASES[theme]()))


# ---- the crates' pages
#
# Each crate of crates.txt has a page, crates/NAME/README.md. On a page
#   a block of code is fenced, and is word for word in the file that the line above it names ("From `src/tests.rt`:"), except for the space at the head
#     of its lines. That is a file of the crate, or from the top if it begins with crates/;
#   the code spans at the head of a list's item name what is public in the crate's sources: `Type::call`, and after it in the same item `other_call` of
#     the same type, `function`, `Type`; or, with a slash, a file of the crate;
#   the code spans in brackets after them, or anywhere in the item after a public name, name clauses of those calls;
#   and the code spans in bold at the head of an item are clauses or calls of the crate.


def after_generics(line):
    """What follows the type parameters at the head of an impl."""
    depth = 0
    for at, sign in enumerate(line):
        depth += (sign == "<") - (sign == ">")
        if sign == " " and not depth:
            return line[at + 1 :]
    return ""


def first_word(text):
    return re.match(r"[A-Za-z_0-9]*", text)[0]


def closing(text, at):
    """The place of the bracket that closes the one at this place. The one of an arrow closes none."""
    depth = 0
    while True:
        if text[at] in "([{<":
            depth += 1
        elif text[at] in ")]}" or (text[at] == ">" and text[at - 1] != "-"):
            depth -= 1
        if depth == 0:
            return at
        at += 1


def parameters(text):
    """The names of the parameters between brackets, without self."""
    parts, at, begun = [], 0, 0
    while at < len(text):
        if text[at] in "([{<":
            at = closing(text, at)
        elif text[at] == ",":
            parts.append(text[begun:at])
            begun = at + 1
        at += 1
    names = [part.partition(":")[0].replace("mut ", "").strip() for part in [*parts, text[begun:]]]
    return ", ".join(name for name in names if name and not re.fullmatch(r"&?('[a-z_]+ )?self", name))


# A call: the type or the trait that it is of, or ""; whether it is `pub` itself; and whether it is one of a trait.
Call = collections.namedtuple("Call", "type name is_pub in_trait parameters clauses")


def calls(path):
    """The functions and methods of a source file, without its tests."""
    with open(path, encoding="utf-8") as file:
        text = re.sub(r"(?m)^\s*//.*\n", "", file.read())
    of, in_trait = "", False
    for found in re.finditer(r"(?m)^(impl.*|pub trait .*|})|^(    |)(pub |pub\(crate\) |)(?:const |extern \"C\" )?fn ([a-z_0-9]+)", text):
        head = found[1]
        if head:
            rest = after_generics(head[4:]) if head.startswith("impl") else head[len("pub trait ") :]
            in_trait = head.startswith("pub trait") or " for " in rest
            of = first_word(re.sub("^(?:[^A-Za-z0-9_]|[a-z_]+::)*", "", rest.rpartition(" for ")[2]))
        elif bool(found[2]) == bool(of):
            at = found.end()
            if text[at] == "<":
                at = closing(text, at) + 1
            end = closing(text, at)
            # The contract is between the head and the brace of the body, or the end of a method without one.
            contract = text[end : re.compile(r"(?m)[{;]$|^ *{").search(text, end).start()]
            yield Call(of, found[4], found[3] == "pub ", in_trait, parameters(text[at + 1 : end]), re.findall(r"(?m)^ *ensures ([a-z_]+) {", contract))


def public_names(crate):
    """What is public in a crate's sources, and the clauses of its calls, as pairs."""
    public, clauses = set(), set()
    for path in glob.glob(f"crates/{crate}/src/*.rt"):
        public.update(re.findall(r"(?m)^pub (?:const |struct |enum |trait |type )([A-Za-z_0-9]+)", "\n".join(lines_of(path))))
        for call in calls(path):
            name = f"{call.type}::{call.name}" if call.type else call.name
            if call.is_pub or call.in_trait or name == "main":
                public.add(name)
            clauses.update((name, clause) for clause in call.clauses)
    return public, clauses


def wrong_item(item, crate, public, clauses):
    """What the names and clauses at the head of a list's item get wrong."""
    type_name, named = "", []
    while span := re.match(r"`([^`]+)`", item):
        item, name = item[span.end() :], span[1]
        if "/" in name:
            if not os.path.exists(f"crates/{crate}/{name}"):
                yield f"there is no file crates/{crate}/{name}"
        else:
            if "::" in name:
                type_name = name.split("::")[0]
            elif type_name and name[0].islower():
                name = f"{type_name}::{name}"
            if name not in public:
                yield f"nothing public is named {name}"
            named.append(name)
        bracket = re.match(r" \((`[^)]*`)\)", item)
        if bracket:
            for clause in re.sub("[`,]", "", bracket[1]).split():
                if not any((name, clause) in clauses for name in named):
                    yield f"none of these calls has a clause {clause}"
            item, named = item[bracket.end() :], []
        item = re.sub(r"^(, | and |, and |; )`", "`", item)
    # And each public name with clauses in the rest of the item.
    for name, bracket in re.findall(r"`([A-Za-z_:]+)` \((`[a-z_]+`(?:, `[a-z_]+`)*)\)", item):
        name = name if name in public else f"{type_name}::{name}"
        if name in public and name.split("::")[-1][0].islower():
            for clause in re.findall("[a-z_]+", bracket):
                if (name, clause) not in clauses:
                    yield f"{name} has no clause {clause}"


def wrong_page(crate):
    """What is wrong with a crate's page: pairs of a line's number and what it is."""
    public, clauses = public_names(crate)
    above, item, item_line, block, file = "", None, 0, None, ""
    for number, line in enumerate(lines_of(f"crates/{crate}/README.md") + [""], 1):
        bare = line.lstrip(" \t")
        if block is not None and not line.startswith("```"):
            block.append(bare)
            continue
        if item and re.match(r"  [^ ]", line):
            item += " " + bare
            continue
        if item:
            yield from ((item_line, what) for what in wrong_item(item, crate, public, clauses))
            item = None
        if line.startswith("```") and block is None:
            block, found = [], re.search(r"From `([^`]+)`:$", above)
            file = found[1] if found else ""
            if not found:
                yield number, "the line above a block of code names no file"
            elif not file.startswith("crates/"):
                file = f"crates/{crate}/{file}"
        elif line.startswith("```"):
            if file and not os.path.exists(file):
                yield number, f"there is no file {file}"
            elif file and not block:
                yield number, "an empty block of code"
            elif file:
                text = [source.lstrip(" \t") for source in lines_of(file)]
                if not any(text[at : at + len(block)] == block for at in range(len(text))):
                    yield number, f"this block of code is not in {file}"
            block, above = None, ""
        elif line.startswith("    "):
            yield number, "a block of code without a fence"
        elif line.startswith("- `"):
            item, item_line = line[2:], number
        elif line.startswith("- **`"):
            known = {clause for _, clause in clauses} | {name.split("::")[-1] for name in public}
            names = re.match(r"(?:\*\*`[a-z_]+`\*\*(?:, | and )?)*", line[2:])[0]
            for name in re.findall("`([a-z_]+)`", names):
                if name not in known:
                    yield number, f"{name} is neither a clause nor a call of the crate"
        elif line.strip():
            above = line
    if block is not None:
        yield number, "a block of code without an end"


def wrong_crate_pages():
    for crate, _ in crate_lines():
        page = f"crates/{crate}/README.md"
        if not os.path.exists(page):
            yield f"{crate} has no page {page}"
        else:
            yield from (f"{page}:{number}: {what}" for number, what in wrong_page(crate))


# ---- how the pages are written

# The most words that the pages kept by hand may have together, and a sentence.
MOST_WORDS = 55000
MOST_WORDS_OF_A_SENTENCE = 35

# The tables of this page are written by kernel/compare.
WRITTEN_TABLES = "docs/KERNEL.md"


def pages():
    return ["README.md", "CHANGELOG.md", "CONTRIBUTING.md"] + sorted(glob.glob("docs/*.md")) + sorted(glob.glob("crates/*/README.md"))


def prose_of_code(path):
    """The comments of a source file, with an empty line for each line of code."""
    found = [re.match(r"\s*//[/!]?\s?(.*)", line) for line in lines_of(path)]
    return [comment[1] if comment else "" for comment in found]


def prose(page):
    """The lines of a page, but an empty line in place of each that is in a block of code, or in a table that a program writes."""
    if page.endswith(".rt"):
        return prose_of_code(page)
    kept, fenced, indented, blank = [], False, False, True
    for line in lines_of(page):
        if line.startswith("```"):
            fenced = not fenced
            kept.append("")
            continue
        indented = line.startswith("    ") and (blank or indented)
        blank = not line.strip()
        written = page == WRITTEN_TABLES and line.startswith("|")
        kept.append("" if fenced or indented or written else line)
    return kept


def words_of(page):
    """How many words a page has outside of its blocks of code, and of the tables that a program writes."""
    return sum(len(line.split()) for line in prose(page))


# Where a sentence ends: after its sign, or after the bracket or the bold letters that end with it; and at the bars of a table.
SENTENCE_END = re.compile(r"""(?:(?<=[.!?:])|(?<=[.!?]\))|(?<=[.!?]\*\*))\s+(?=[A-Z*`(\["])|\s*\|\s*""")


def sentences(page, with_code=False):
    """The sentences of a page. What is in a code span is X, or with_code as it is written; links are their words."""
    held, found = [], []
    for line in prose(page) + [""]:
        # A paragraph ends at an empty line; a heading, an item and a row are paragraphs.
        starts = re.match(r"\s*(#|- |\||[0-9]+\. )", line)
        if held and (starts or not line.strip()):
            found.append(" ".join(held))
            held = []
        if line.strip():
            held.append(line.strip())
    for text in found:
        spans = re.findall(r"`[^`]*`", text)
        text = re.sub(r"`[^`]*`", "X\0", text)
        text = re.sub(r"!?\[([^]]*)\]\([^)]*\)", r"\1", text)
        text = re.sub(r"^([-#]+|[0-9]+\.) ", "", text)
        for sentence in SENTENCE_END.split(text):
            if with_code:
                sentence = re.sub("X\0", lambda _: spans.pop(0), sentence)
            sentence = sentence.replace("\0", "").replace("**", "").strip().lstrip("(*")
            if sentence:
                yield sentence


def phrases():
    """The phrases that pages don't use, each with what to write instead."""
    found = []
    for line in lines_of("docs/phrases"):
        if not line.startswith("#"):
            pattern, instead = line.split("\t")
            found.append((re.compile(pattern), instead))
    return found


def odd_phrases(sentence, listed):
    """What the list finds in a sentence, each with what to write instead."""
    return [(found[0].strip(), instead) for pattern, instead in listed for found in [pattern.search(sentence)] if found]


def is_long(sentence):
    return len(sentence.split()) > MOST_WORDS_OF_A_SENTENCE


def print_phrases(*named):
    listed = phrases()
    for page in named or pages():
        for sentence in sentences(page):
            hits = [f"'{phrase}' (write: {instead})" for phrase, instead in odd_phrases(sentence, listed)]
            if is_long(sentence):
                hits.append(f"{len(sentence.split())} words")
            if hits:
                print(f"{page}: {'; '.join(hits)}: {sentence}")


def print_sample(page):
    found = [sentence for sentence in sentences(page, with_code=True) if len(sentence.split()) > 5]
    for sentence in random.sample(found, min(10, len(found))):
        print(f"- {sentence}")


def count(page, listed):
    """How many sentences of a page have a phrase of the list, and how many are too long."""
    found = list(sentences(page))
    return sum(bool(odd_phrases(sentence, listed)) for sentence in found), sum(map(is_long, found))


COUNTS_HEAD = """# Of each page how many sentences have a phrase of docs/phrases, and how many have more than 35 words; pages without any are left out.
# And how many words all pages have, if there are more than 55,000. docs/check fails if a number rises. docs/tool.py counts writes what fell;
# docs/tool.py counts --all writes all, for instance after a merge."""


def kept_counts():
    """The counts that are kept, by page, and how many words there may be."""
    found, most = {}, MOST_WORDS
    for line in lines_of("docs/counts") if os.path.exists("docs/counts") else []:
        if line.startswith("words "):
            most = max(most, int(line.split()[1]))
        elif not line.startswith("#"):
            page, odd, long = line.split()
            found[page] = int(odd), int(long)
    return found, most


def current_counts():
    listed = phrases()
    return {page: count(page, listed) for page in pages()}, sum(map(words_of, pages()))


def risen():
    """Which counts are greater than those kept, each with what to do."""
    (now, words), (kept, most) = current_counts(), kept_counts()
    found = []
    for page, counted in now.items():
        for number, allowed, what in zip(counted, kept.get(page, (0, 0)), ("with a phrase of docs/phrases", f"of more than {MOST_WORDS_OF_A_SENTENCE} words")):
            if number > allowed:
                found.append(f"{page} has {number} sentences {what}, and may have {allowed}; docs/tool.py phrases {page} shows them")
    if words > most:
        found.append(f"the pages have {words} words, and may have {most}")
    return found


def write_counts(option=None):
    wrong = [] if option == "--all" else risen()
    for line in wrong:
        print(f"docs: {line}", file=sys.stderr)
    if wrong:
        sys.exit(1)
    now, words = current_counts()
    with open("docs/counts", "w", encoding="utf-8") as file:
        print(COUNTS_HEAD, file=file)
        if words > MOST_WORDS:
            print("words", words, file=file)
        for page, (odd, long) in now.items():
            if odd or long:
                print(page, odd, long, file=file)
    for page in pages():
        print(f"{page}: {words_of(page)} words, {now[page][0]} odd, {now[page][1]} long")
    print(f"{words} words")


# The crates whose strings a user reads.
TELLING = ("charts", "command_line", "embedded_exploration", "embedding", "expectations", "explain", "machine", "memcgrun", "printer", "scenarios", "script_faults", "scripts", "subcommands", "thread_runs")


def messages():
    """Each string of the program that a user may read, of three words or more, with its file."""
    for crate in TELLING:
        for path in sorted(glob.glob(f"crates/{crate}/src/**/*.rt", recursive=True)):
            with open(path, encoding="utf-8") as file:
                code = re.sub(r"^\s*(//|ghost ).*$", "", file.read().split("#[cfg(test)]\nmod tests {")[0], flags=re.M)
                # A quote as a character begins no string; nor does a string go over a line.
                code = code.replace("'\"'", "")
            for text in re.findall(r'"((?:[^"\\\n]|\\.)*)"', code):
                if len(text.split()) > 2:
                    yield path, text


def wrong_messages():
    """The strings of the program that have a phrase of the list, or are too long."""
    listed = phrases()
    found = []
    for path, text in messages():
        found += [f"{path} says '{text}': '{phrase}' (write: {instead})" for phrase, instead in odd_phrases(text, listed)]
        if is_long(text):
            found.append(f"{path} says '{text}', which has {len(text.split())} words")
    return found


def wrong_commands():
    """What pages call by the name of this program, and it does not know."""
    found = []
    for page in pages():
        with open(page, encoding="utf-8") as file:
            said = set(re.findall(r"docs/tool\.py ([a-z]+)", file.read()))
        found += [f"{page} names docs/tool.py {word}, which is no command of it" for word in sorted(said - set(COMMANDS))]
    return found


def wrong_places():
    """What docs/MAP.md names under "Where to change what" and is not there. A part of a cell is `CRATE`, and behind a colon files of its specs/ or src/; in
    brackets are words of them."""
    wrong = []
    rows = itertools.dropwhile(lambda line: line != "## Where to change what", lines_of("docs/MAP.md"))
    for line in itertools.takewhile(lambda line: not line.startswith("## B"), rows):
        cells = [cell.strip() for cell in line.split("|")[1:-1]]
        if len(cells) != 3 or "`" not in line:
            continue
        for folder, cell in (("specs", cells[1]), ("src", cells[2])):
            for part in cell.split("; "):
                crate = None
                inner = re.findall(r"\(([^)]*)\)", part)
                for name in re.findall(r"`([^`]+)`", re.sub(r"\([^)]*\)", "", part)):
                    file = name + ".antt" if folder == "specs" and name[0].isupper() else name
                    if "/" in name or "." not in file:
                        crate = name
                        place = name if "/" in name else f"crates/{name}"
                    else:
                        place = f"crates/{crate}/{folder}/{file}"
                    if not os.path.exists(place):
                        wrong.append(f"docs/MAP.md names {name} of {crate}: there is no {place}")
                words = {word for text in inner for word in re.findall(r"`([A-Za-z_]+)`", text)}
                if words and crate:
                    sources = glob.glob(f"crates/{crate}/specs/*.antt") + glob.glob(f"crates/{crate}/src/*.rt")
                    missing = words - set(re.findall(r"[A-Za-z_]+", "".join(open(path, encoding="utf-8").read() for path in sources)))
                    wrong += [f"docs/MAP.md names {word}, which is no word of the crate {crate}" for word in sorted(missing)]
    return wrong


def faults():
    """What is wrong with the sentences of laws and lemmas, the picture of the crates, the places that MAP names, and how pages are written."""
    for name, says in laws():
        if not says:
            yield f"crates/laws/src/lib.rt: the law {name} has no sentence"
    for crate, _ in crate_lines():
        yield from (f"crates/{crate}/proofs/{file}.antt does not begin with a comment" for file, says in lemma_files(crate) if not says)
        yield from (f"crates/{crate}/src/{file} does not begin with a comment" for file, says in source_files(crate) if not says)
    with open("docs/crates.svg", encoding="utf-8") as file:
        if file.read() != picture():
            yield "docs/crates.svg is not what docs/tool.py crates prints"
    yield from wrong_commands() + wrong_places() + wrong_messages() + risen()


COMMANDS = {
    "tables": print_tables,
    "laws": print_laws,
    "map": print_map,
    "crates": print_crates,
    "chain": print_chain,
    "cases": print_cases,
    "phrases": print_phrases,
    "sample": print_sample,
    "counts": write_counts,
}


def main():
    if len(sys.argv) < 2 or sys.argv[1] not in COMMANDS:
        sys.exit(__doc__)
    try:
        COMMANDS[sys.argv[1]](*sys.argv[2:])
    except BrokenPipeError:
        os.dup2(os.open(os.devnull, os.O_WRONLY), sys.stdout.fileno())


if __name__ == "__main__":
    main()
