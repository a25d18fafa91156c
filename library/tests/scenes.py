"""Scenarios, and what the library has to give of each. Those of crates/scenes/data say it themselves; the head of crates/scenes/src/scene.rt says how
they are written. Those of examples/scenarios give what a program prints."""
import glob
import os
import re
import subprocess
import sys
import tempfile

TOP = os.path.dirname(os.path.dirname(os.path.dirname(os.path.abspath(__file__))))
# What library/memcgrun.h calls the statuses of a call.
OK, BAD_SCRIPT, DIFFERS, BAD_OPTIONS = 0, 1, 4, 5
# The scenarios of vary.txt are run many times each, which the library does not do.
FILES = ["scenes.txt", "outputs.txt"]
FORMS = ["--chart", "--csv", "--json"]
# What the program says if its output does not show that something was unexpected. The library has a status for that.
UNEXPECTED = "scenario: a line was refused, or an expectation is not met; "


class Scene:
    """A scenario, and what the library has to give of it. It has the members that library/check reads of a case."""

    def __init__(self, where, name):
        self.where, self.name, self.subcommand, self.options = where, name, "simulate", []
        self.lines, self.printed = [], None
        self.fails = False
        # Only `memcgrun check` prints what is not as expected alone.
        self.is_check = False

    def take(self, line):
        what, _, rest = line[3:].partition(" ") if line.startswith("-- ") else ("", "", "")
        if line == "-- prints":
            self.printed = []
        elif line == "-- unmet":
            self.is_check = True
        elif line == "-- fails":
            self.fails = True
        elif line == "-- expanded":
            self.subcommand = "expand"
        elif line == "-- goes on":
            self.options.append("--go-on")
        elif f"--{what}" in FORMS and not rest:
            self.options.append(f"--{what}")
        elif what in ("set", "cuts", "every", "depth", "groups"):
            self.options.append(f"--{what}={rest.replace(' ', '+')}")
        elif what:
            sys.exit(f"scenes: {self.name}: {line} is unknown")
        elif self.printed is None:
            self.lines.append(line)
        elif line and (self.subcommand == "expand" or not line.startswith("#")):
            self.printed.append(re.sub("^scene:", "scenario:", line))

    @property
    def text(self):
        return joined(self.lines)

    @property
    def call(self):
        return call_of(self.subcommand, self.options)

    @property
    def wanted(self):
        """The status and both texts. The scenario's file is called scenario there. Options that are not valid leave the first text empty."""
        printed = [line for line in self.printed if not line.startswith(UNEXPECTED)]
        said = [line for line in printed if line.startswith("scenario:")]
        if said:
            status = BAD_OPTIONS if said[0].startswith("scenario: --") else BAD_SCRIPT
        else:
            status = DIFFERS if self.fails else OK
        shown = [] if status == BAD_OPTIONS else [line for line in printed if line not in said]
        return status, joined(shown), joined(said)


class Example:
    """A scenario of examples/ and the options of a call, which has to give what the program prints."""

    where = "examples/scenarios"

    def __init__(self, name, text, subcommand, options, program):
        self.name, self.text, self.subcommand, self.options, self.program = name, text, subcommand, options, program

    @property
    def call(self):
        return call_of(self.subcommand, self.options)

    @property
    def wanted(self):
        words = [word for option in self.options for word in option.split("=", 1)]
        with tempfile.TemporaryDirectory() as room:
            with open(os.path.join(room, "scenario"), "w", encoding="utf-8") as file:
                file.write(self.text)
            done = subprocess.run([self.program, self.subcommand, "scenario", *words], cwd=room, stdout=subprocess.PIPE, stderr=subprocess.PIPE, check=False)
        out, err = done.stdout.decode(), done.stderr.decode()
        if err or done.returncode > 1:
            sys.exit(f"scenes: {self.name}: {self.call} ends with {done.returncode}: {err}")
        return (DIFFERS if done.returncode else OK), out, err


def joined(lines):
    return "".join(line + "\n" for line in lines)


def call_of(subcommand, options):
    """What library/tests/ask.c is asked. There the values of an option that comes several times are together."""
    values = {}
    for name, equals, value in (option.partition("=") for option in options):
        values.setdefault(name + equals, []).append(value)
    return ",".join([subcommand, *(name + "+".join(words) for name, words in values.items())])


def scenes():
    """All but those that are checked, and those whose picture is printed, since it has the name of the file. Pictures are compared by the examples."""
    return (scene for scene in read_scenes() if not scene.is_check and "--chart" not in scene.options)


def read_scenes():
    for where in FILES:
        with open(os.path.join(TOP, "crates", "scenes", "data", where), encoding="utf-8") as file:
            scene = None
            for line in file.read().split("\n"):
                if line.startswith("== "):
                    if scene:
                        yield scene
                    scene = Scene(where, line[3:])
                elif scene:
                    scene.take(line)
            if scene:
                yield scene


def program_of(is_over_ci):
    """The program of these sources: the one that rt ci built, or one that dist/take finds. None if there is none."""
    if is_over_ci:
        return os.path.join(TOP, "crates", "memcgrun", "out", "memcgrun")
    done = subprocess.run([os.path.join(TOP, "dist", "take"), "program"], stdout=subprocess.PIPE, check=False)
    return done.stdout.decode().strip() if done.returncode == 0 else None


def examples(program):
    """The calls of each example: its script, what it prints in each form, and with each setting that its first lines name."""
    for path in sorted(glob.glob(os.path.join(TOP, "examples", "scenarios", "*.scenario"))):
        with open(path, encoding="utf-8") as file:
            text = file.read()
        head = joined(line for line in text.split("\n") if line.startswith("#"))
        forms = [[], *([form] for form in FORMS), *([f"--set={setting}"] for setting in re.findall(r"--set (\w+=[\w.]*\w)", head))]
        yield Example(os.path.basename(path), text, "expand", [], program)
        for options in forms:
            yield Example(os.path.basename(path), text, "simulate", options, program)
