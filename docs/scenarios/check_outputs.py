#!/usr/bin/env python3
"""Compares what `PROGRAM simulate` prints of a scenario in four forms: report, CSV, JSON and chart. Scenarios are those of examples/, and N random ones.

    check_outputs.py PROGRAM N SEED

Rows without `together` and `until` are also compared with the table of `PROGRAM chart --csv` for the expanded script, whose numbers are proved.
"""
import csv
import io
import json
import pathlib
import re
import subprocess
import sys
import tempfile
import xml.etree.ElementTree
from fractions import Fraction

from random_scenarios import scenarios

EXAMPLES = pathlib.Path(__file__).parent.parent.parent / 'examples' / 'scenarios'
RECORDS = {'rounded', 'row', 'kill', 'refused', 'unreached', 'expect', 'show', 'mark', 'end'}
MOVED = ('read_in', 'written_out', 'dropped')
MACHINE = ('used', 'free', 'swap', *MOVED)
GROUP = ('current', 'anon', 'file', 'max', 'min', 'low', 'refused', 'killed')
SCRIPT_PAGE = 4096
MIB_PAGE = 65536
TABLE_ROW = re.compile(r'^  (/.*?) +([\d,.]+) +([\d,.]+) +([\d,.]+) +(\d+) +(\d+) +([\d,.]+) +([\d,.]+) +([\d,.]+)$')


class Differs(Exception):
    """Two outputs say different things."""


def same(what, one, other):
    if one != other:
        raise Differs(f'{what}: {one} and {other}')


def output(program, path, *words):
    done = subprocess.run([program, *words, path], capture_output=True, text=True, check=False)
    return done.stdout, done.returncode, done.stderr


def records_of(text):
    records = [json.loads(line) for line in text.splitlines()]
    for record in records:
        if record['record'] not in RECORDS:
            raise Differs(f'unknown record {record}')
    same('the last record', records[-1]['record'], 'end')
    return records


def of(records, *kinds):
    return [record for record in records if record['record'] in kinds]


def check_csv(text, records):
    """Each row of the CSV is one of the JSON, in order."""
    wanted = []
    for row in of(records, 'row'):
        for group in row['groups']:
            cells = {'line': row['line'], 'rounds': '.'.join(map(str, row['rounds'])), 'phase': row['phase'], 'died': ', '.join(row['died'])}
            cells.update({name: row[name] for name in MACHINE})
            cells.update({name: 'max' if group[name] is None else group[name] for name in GROUP}, group=group['path'])
            wanted.append({name: str(cell) for name, cell in cells.items()})
    same('CSV and JSON', list(csv.DictReader(io.StringIO(text, newline=''))), wanted)


def check_chart(text, records):
    """The chart is well-formed, and has a cross with names for each row in which tasks died."""
    tree = xml.etree.ElementTree.fromstring(text)
    titles = [title.text for title in tree.iter('{http://www.w3.org/2000/svg}title')]
    for row in of(records, 'row'):
        if row['died']:
            end = ': killed ' + ', '.join(row['died'])
            if not any(title.endswith(end) for title in titles):
                raise Differs(f'no cross for{end}')


def size_text(size, page):
    """A size as the report has it: KiB, or MiB with a tie rounded to the even tenth."""
    if page < MIB_PAGE:
        return f'{size // 1024:,}'
    tenths = round(Fraction(size * 10, 2**20))
    return f'{tenths // 10:,}.{tenths % 10}'


def check_report(text, records, page):
    """The report's tables, kills and expectations are those of the JSON."""
    tables = [match.groups() for match in map(TABLE_ROW.match, text.splitlines()) if match]
    wanted = []
    for show in of(records, 'show'):
        for group in show['groups']:
            sizes, moved = ([size_text(group[name], page) for name in names] for names in (('current', 'anon', 'file'), MOVED))
            wanted.append((group['path'], *sizes, str(group['refused']), str(group['killed']), *moved))
    same('tables of the report and of the JSON', tables, wanted)
    end = records[-1]
    last = text.splitlines()[-1]
    same('killed tasks', f"; {end['killed']} killed; " in last, True)
    same('unmet expectations', text.count(': NOT MET, '), len([one for one in of(records, 'expect') if not one['met']]))
    kills = of(records, 'kill')
    same('kills', end['killed'], sum(1 + len(kill['with']) for kill in kills))
    for kill in kills[:20]:
        if f"{kill['words']}: {kill['task']} is killed" not in text:
            raise Differs(f'the report lacks {kill}')


def page_of(script):
    number, unit = re.match(r'# page (\d+)([KMGT]?)', script).groups()
    return int(number) << {'': 0, 'K': 10, 'M': 20, 'G': 30, 'T': 40}[unit]


def script_lines(script):
    """For each line and its rounds, the number of its last line in the script."""
    last = {}
    place = None
    for number, line in enumerate(script.splitlines(), 1):
        heading = re.match(r'# (\d+)(?:, round ([\d.]+))?$', line)
        if heading:
            place = (int(heading[1]), heading[2] or '')
        elif place and not line.startswith('#'):
            last[place] = number
    return last


def check_rows(program, path, script, records, page):
    """The rows of groups are those of the chart of the script, and it has those of no other group."""
    with tempfile.NamedTemporaryFile('w', suffix='.memcg', encoding='utf-8') as file:
        file.write(script)
        file.flush()
        placement = ['--as-linux'] if 'with --as-linux' in script.partition('\n')[0] else []
        table, status, _ = output(program, file.name, 'chart', '--csv', '--turns', '0', *placement)
    same(f'status of the chart of {path}', status, 0)
    charted = {}
    for row in csv.DictReader(io.StringIO(table)):
        charted.setdefault(int(row['line']), {})[row['group']] = row
    lines = script_lines(script)
    for row in of(records, 'row'):
        at = lines[row['line'], '.'.join(map(str, row['rounds']))]
        groups = charted.get(at, {})
        for group in row['groups']:
            if '_x' in script or group['path'] not in groups:
                continue
            shown = groups[group['path']]
            for name in ('current', 'anon', 'file', 'max', 'min', 'low'):
                pages = None if shown[name] == 'max' else int(shown[name]) // SCRIPT_PAGE * page
                same(f"{name} of {group['path']} after line {row['line']} {row['rounds']}", group[name], pages)
            same('refused', group['refused'], int(shown['refused']))
            same('killed', group['killed'], int(shown['oom_kill']))


def check(program, path):
    """Compares all outputs of one scenario. The result says whether it could be run."""
    script, status, _ = output(program, path, 'expand')
    text, ran, fault = output(program, path, 'simulate', '--json', '--go-on')
    # A fault may be found after an `until`.
    if status or fault:
        return False
    page = page_of(script)
    records = records_of(text)
    same('the status and the last record', ran == 0, records[-1]['as_expected'])
    check_csv(output(program, path, 'simulate', '--csv', '--go-on')[0], records)
    check_chart(output(program, path, 'simulate', '--chart', '--go-on')[0], records)
    check_report(output(program, path, 'simulate', '--go-on')[0], records, page)
    source = pathlib.Path(path).read_text(encoding='utf-8')
    if 'together' not in source and 'until' not in source:
        check_rows(program, path, script, records, page)
    return True


def main():
    if len(sys.argv) != 4:
        print('Usage: check_outputs.py PROGRAM N SEED', file=sys.stderr)
        sys.exit(2)
    program, count, seed = sys.argv[1], int(sys.argv[2]), int(sys.argv[3])
    ran = differing = 0
    with tempfile.TemporaryDirectory() as directory:
        paths = sorted(EXAMPLES.glob('*.scenario'))
        for number, data in enumerate(scenarios(count, seed, False), 1):
            path = pathlib.Path(directory) / f'{number:04}.scenario'
            path.write_bytes(data)
            paths.append(path)
        for path in paths:
            try:
                ran += check(program, path)
            except Differs as why:
                differing += 1
                print(f'{path.name}: {why}')
    print(f'{ran} scenarios were run, and {differing} differ')
    sys.exit(1 if differing or not ran else 0)


if __name__ == '__main__':
    main()
