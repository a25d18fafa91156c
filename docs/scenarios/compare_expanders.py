#!/usr/bin/env python3
"""Compares `PROGRAM expand FILE` with expand_scenario.py: on the scenarios of examples/, and on N random ones and N with a mistake.

    compare_expanders.py PROGRAM N SEED [simulate]

It prints the scenarios whose script, or whose line of the fault, differs, with the first line that does, and keeps them in a directory that it
names. With `simulate` it compares instead what `PROGRAM simulate FILE` and `expand_scenario.py FILE --run PROGRAM` print of those without a mistake.
What groups moved is left out where the Python program does not know it; the last line says of how many scenarios.
"""
import contextlib
import io
import itertools
import pathlib
import re
import subprocess
import sys
import tempfile

from expand_scenario import Expansion
from random_scenarios import scenarios
from run_scenario import COUNTS, UNKNOWN, run
from scenario_text import Fault, read_scenario, told

EXAMPLES = pathlib.Path(__file__).parent.parent.parent / 'examples' / 'scenarios'
MOST_TOLD = 10


def expanded(data, name):
    """What an expander has to print: the script, or the line of the fault."""
    try:
        return ''.join(f'{line}\n' for line in Expansion(read_scenario(data)).script())
    except Fault as fault:
        return f'{name}:{told(fault, data)}\n'


def expanded_by(program, path):
    done = subprocess.run([program, 'expand', path], capture_output=True, text=True, check=False)
    if done.returncode == 0:
        return done.stdout
    if done.stdout:
        return f'status {done.returncode}, and on standard output: {done.stdout}'
    return done.stderr if done.returncode == 1 else f'status {done.returncode}: {done.stderr}'


def simulated(program, data, name):
    """What `simulate` has to print, with the status; or the line of a fault after an `until`, before which `simulate` has run something."""
    with contextlib.redirect_stdout(io.StringIO()) as printed:
        try:
            status = run(read_scenario(data), (), program, False)
        except Fault as fault:
            return f'{name}:{told(fault, data)}\nstatus 1\n'
    return f'{printed.getvalue()}status {status}\n'


def simulated_by(program, path):
    done = subprocess.run([program, 'simulate', path], capture_output=True, text=True, check=False)
    return f'{done.stderr or done.stdout}status {done.returncode}\n'


def ends_before(wanted, found):
    """Whether a refusal ended the run above the fault that the Python program reports. It looks for faults before it runs anything."""
    fault = re.fullmatch(r'.*?:([0-9]+):[0-9]+: .*\nstatus 1\n', wanted)
    refused = re.findall(r'^line ([0-9]+).*: refused with ', found, re.M)
    return bool(fault and refused) and found.endswith('\nstatus 1\n') and int(refused[-1]) < int(fault[1])


def without_unknown(wanted, found):
    """Both texts, without what the Python program does not know: the last cells of rows of tables."""
    unknown = f'{UNKNOWN:>10}' * len(COUNTS)
    ours, theirs = wanted.split('\n'), found.split('\n')
    for at, line in enumerate(ours):
        if line.endswith(unknown) and at < len(theirs):
            ours[at], theirs[at] = line[:-len(unknown)], theirs[at][:-len(unknown)]
    return '\n'.join(ours), '\n'.join(theirs)


def difference(wanted, found):
    """The first line that differs, with its number."""
    pairs = itertools.zip_longest(wanted.splitlines(), found.splitlines(), fillvalue='nothing')
    number, (one, other) = next(((number, pair) for number, pair in enumerate(pairs, 1) if pair[0] != pair[1]), (0, ('', 'another line end')))
    return f'line {number}: {one!r} here, {other!r} there'


def main():
    if len(sys.argv) not in (4, 5) or sys.argv[4:] not in ([], ['simulate']):
        print('Usage: compare_expanders.py PROGRAM N SEED [simulate]', file=sys.stderr)
        return 2
    program, count, seed, simulates = sys.argv[1], int(sys.argv[2]), int(sys.argv[3]), len(sys.argv) == 5
    room = pathlib.Path(tempfile.mkdtemp(prefix='scenarios.'))
    named = [(path.name, path.read_bytes()) for path in sorted(EXAMPLES.glob('*.scenario'))]
    for kind, faulty in [('valid', False)] if simulates else [('valid', False), ('faulty', True)]:
        named += [(f'{kind}_{number:04}.scenario', data) for number, data in enumerate(scenarios(count, seed, faulty), 1)]
    differ = unknown = 0
    for name, data in named:
        path = room / name
        path.write_bytes(data)
        if simulates:
            whole = simulated(program, data, path)
            wanted, found = without_unknown(whole, simulated_by(program, path))
            unknown += wanted != whole
        else:
            wanted, found = expanded(data, path), expanded_by(program, path)
        if wanted == found or simulates and ends_before(wanted, found):
            path.unlink()
            continue
        differ += 1
        if differ <= MOST_TOLD:
            print(f'{path}: {difference(wanted, found)}')
    if not differ:
        room.rmdir()
    print(f'{len(named)} scenarios, {differ} differ' + (f', {unknown} without what groups moved' if simulates else ''))
    return 1 if differ else 0


if __name__ == '__main__':
    sys.exit(main())
