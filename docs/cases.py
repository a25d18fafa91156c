"""Reads the files of cases, crates/cases/data/*.cases, and what scripts expect in their lines `#> `. The program `cases` reads the same files; the head of
crates/cases/src/case.rt says how they are written."""
import copy
import glob
import os

TOP = os.path.dirname(os.path.dirname(os.path.abspath(__file__)))
# The options that the library has, and what library/memcgrun.h calls the statuses of a call.
OPTIONS = {"--labels", "--strict", "--as-linux", "--explain", "--quiet", "--summary"}
OK, BAD_SCRIPT, REFUSED = 0, 1, 3


def answered_lines(lines, first=1):
    """The lines of a script that are no comments, each with its number and the answers that lines `#> ` after it expect."""
    found = []
    for number, line in enumerate(lines, first):
        if line.startswith("#> "):
            found[-1][2].append(line[3:])
        elif not line.startswith("#"):
            found.append((number, line, []))
    return found


class Case:
    """A script, and all that its file says of it: `prints` on standard output, `said` on standard error, where the script's file is called `case`."""

    def __init__(self, where, name):
        self.where, self.name = where, name
        self.script, self.prints, self.said, self.options, self.checked = [], [], [], [], []
        self.fails = self.on_threads = self.as_linux_too = self.has_ended = False

    def take(self, line):
        what, _, rest = line[3:].partition(" ") if line.startswith("-- ") else ("", "", "")
        if what == "with":
            self.options = rest.split()
        elif line == "-- on threads":
            self.on_threads = True
        elif line == "-- as linux too":
            self.as_linux_too = True
        elif line.startswith("-- checked"):
            self.checked.append(line[len("-- checked"):])
        elif line == "-- prints":
            self.has_ended = True
        elif what in ("says", "faults", "explained"):
            self.has_ended = True
            self.fails = self.fails or what == "faults"
            if what == "explained" and "--explain" not in self.options:
                self.options = [*self.options, "--explain"]
            self.said.append(rest)
        elif not self.has_ended:
            self.script.append(line)
        elif line and not line.startswith("#"):
            self.prints.append(line)

    @property
    def text(self):
        script = joined(self.script).rstrip("\n")
        return script and script + "\n"

    @property
    def wanted(self):
        """Of a call of the library: the status, what is printed, and what is said. The script's file is called script there. A refused line has an answer, and
        a faulty script none."""
        return (REFUSED if self.prints else BAD_SCRIPT) if self.fails else OK, joined(self.prints), joined(self.said).replace("case:", "script:")

    @property
    def call(self):
        """What library/tests/ask.c is asked, or None if the library has not all of the options."""
        return ",".join(["schedule", *self.options]) if OPTIONS.issuperset(self.options) else None


def joined(lines):
    return "".join(line + "\n" for line in lines)


def read_cases():
    for path in sorted(glob.glob(os.path.join(TOP, "crates", "cases", "data", "*.cases"))):
        if os.path.basename(path) == "wrong_on_purpose.cases":
            continue
        with open(path, encoding="utf-8") as data:
            case = None
            for line in data.read().split("\n"):
                if line.startswith("== "):
                    if case:
                        yield case
                    case = Case(os.path.basename(path), line[3:])
                elif case:
                    case.take(line)
            if case:
                yield case


def cases():
    """Each case, and one that holds with --as-linux too once more so."""
    for case in read_cases():
        yield case
        if case.as_linux_too:
            other = copy.copy(case)
            other.options = [*case.options, "--as-linux"]
            yield other
