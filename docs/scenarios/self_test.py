"""Compares the expansion with the tables and examples of the language of scenarios, and what is said of faults with crates/scenes/data."""
import pathlib
import re

from expand_scenario import Expansion, setting
from scenario_text import Fault, drawn, read_scenario, told

SCENES = pathlib.Path(__file__).parent.parent.parent / 'crates' / 'scenes' / 'data' / 'scenes.txt'

GROUP = 'group /a\ntask x in /a\n'
FILE = 'file f 3p\n' + GROUP

# A scenario, and its script without the header and the lines `# LINE`.
STANDS_FOR = [
    ('page 1M\ngroup /a max 2.5M\ntask x in /a\nx write 1.5M', 'group /a|set /a memory.max 8192|task 1 /a|1 write 0 0 1|1 write 1 0 1'),
    ('group "/a b"\ntask x in "/a b"\nrepeat 2\nx write 1p\nend', 'group /_x1|task 1 /_x1|1 write 0 0 1|1 write 1 0 1'),
    (FILE + 'x fread f next 2p\nx fread f next 2p', 'group /a|task 1 /a|1 fread f 0 0|1 fread f 1 0|1 fread f 2 0|1 fread f 0 0'),
    (GROUP + 'x write 3p\nx free 1p\nx write 0..1p\nx write 1p',
     'group /a|task 1 /a|1 write 0 0 1|1 write 1 0 1|1 write 2 0 1|1 free 2|1 write 0 0 1|1 write 2 0 1'),
    # Sizes that are no whole page.
    (GROUP + 'x write 1K\nx write 1K', 'group /a|task 1 /a|1 write 0 0 1|1 write 1 0 1'),
    (GROUP + 'x read 1K..5K', 'group /a|task 1 /a|1 read 0 0|1 read 1 0'),
    (GROUP + 'set /a max 5K\nset /a memory.min 4095\nset /a low max\nset /a oom.group 1\nreclaim /a 9000',
     'group /a|task 1 /a|set /a memory.max 4096|set /a memory.min 0|set /a memory.low max|set /a memory.oom.group 1|set /a memory.reclaim 8192'),
    (GROUP + 'x write 2p\nx free 7K', 'group /a|task 1 /a|1 write 0 0 1|1 write 1 0 1|1 free 1'),
    (FILE + 'x fread f next 1', 'group /a|task 1 /a|1 fread f 0 0'),
    # The lines of tasks.
    (GROUP + 'x read\nx write 2p\nx read\nx free\nx read', 'group /a|task 1 /a|1 write 0 0 1|1 write 1 0 1|1 read 0 0|1 read 1 0|1 free 0|1 free 1'),
    (GROUP + 'x write 2p\nx write 5p..6p\nx free 5p..6p\nx write 1p',
     'group /a|task 1 /a|1 write 0 0 1|1 write 1 0 1|1 write 5 0 1|1 free 5|1 write 5 0 1'),
    (GROUP + 'x write 1p\nx fork y\ny write 1p\nx exit', 'group /a|task 1 /a|1 write 0 0 1|1 fork 2|2 write 1 0 1|1 exit'),
    (FILE + 'x fwrite f 1p..2p\nx fread f', 'group /a|task 1 /a|1 fwrite f 1 0 1|1 fread f 0 0|1 fread f 1 0|1 fread f 2 0'),
    ('group /a\ntask w[1..2] in /a\nw[2] fork w[7]\nw[*] write 1p\nattach w[1..2] /a',
     'group /a|task 1 /a|task 2 /a|2 fork 3|1 write 0 0 1|2 write 0 0 1|3 write 0 0 1|attach 1 /a|attach 2 /a'),
    (GROUP + 'x write 3p random 2 seed 7'.replace('3p', '0..3p'), 'group /a|task 1 /a|1 write 1 0 1|1 write 0 0 1'),
    # Blocks.
    (GROUP + 'x write 3p\ntogether\nx read\nx free 0..2p\nend',
     'group /a|task 1 /a|1 write 0 0 1|1 write 1 0 1|1 write 2 0 1|1 read 0 0|1 free 0|1 read 1 0|1 read 2 0|1 free 1'),
    (GROUP + 'x write 4p\ntogether\nx read\nrepeat 2\ndaemon\nend\nend',
     'group /a|task 1 /a|1 write 0 0 1|1 write 1 0 1|1 write 2 0 1|1 write 3 0 1|1 read 0 0|1 read 1 0|daemon|1 read 2 0|1 read 3 0|daemon'),
    ('group /a\nrepeat i in 1 2\nrepeat 2 as j\nlet both {i}-{j}\ngroup /a/g{both}{round}\nend\nend',
     'group /a|group /a/g1-11|group /a/g1-22|group /a/g2-11|group /a/g2-22'),
    ('let n 2\nlet n {n}p\ngroup /a\ntask x in /a\nx write {n}', 'group /a|task 1 /a|1 write 0 0 1|1 write 1 0 1'),
    ('group "/a b"\nraw cat /_x1 memory.current\nraw begin 3 read 0 0', 'group /_x1|cat /_x1 memory.current|begin 3 read 0 0'),
]

# The pages of a random part: the seed, and the first of 1,000 pages.
DRAWN = {0: [883, 431, 26, 970], 1: [566, 745, 971, 444], 7: [389, 16, 900, 582]}

# Scenarios whose script is printed whole.
PRINTED = [
    ('# a scenario\npage 1M\nfault write 3\nfile "a file" 2.5M\nswap 3.5M\nwatermarks 1.5M 2M\nmemory 8M\nplacement plain\ngroup /a max 3M\n'
     'task x in /a\nrepeat 2\n  repeat 2\n    x write 1M\n  end\n  show /a\nend\nexpect "/a" current >= 4M # no\nmark the  end',
     '# page 1M; without --as-linux\nframes 8\nswap 3\nwatermarks 1 2\ntrace 1048576\nrecursiveprot\nfile _x1 3\nfault write 3\n'
     '# 9\ngroup /a\nset /a memory.max 12288\n# 10\ntask 1 /a\n'
     '# 13, round 1.1\n1 write 0 0 1\n# 13, round 1.2\n1 write 1 0 1\n# 15, round 1: show /a\n'
     '# 13, round 2.1\n1 write 2 0 1\n# 13, round 2.2\n1 write 3 0 1\n# 15, round 2: show /a\n# 17: expect "/a" current >= 4M\n# 18: mark the end\n'),
    ('protection plain', '# page 4K; with --as-linux\nframes 65536\nswap 0\ntrace 1048576\n'),
    (FILE + 'repeat 2\nrepeat 1\nx fread f 0..1p\nend\nx write 1p\nend',
     '# page 4K; with --as-linux\nframes 65536\nswap 0\ntrace 1048576\nrecursiveprot\nfile f 3\n# 2\ngroup /a\n# 3\ntask 1 /a\n'
     '# 6, round 1.1\n1 fread f 0 0\n# 8, round 1\n1 write 0 0 1\n# 6, round 2.1\n1 fread f 0 0\n# 8, round 2\n1 write 1 0 1\n'),
]

# Lists with `until`: the scenario after GROUP, the lengths, and the script after the lines of GROUP.
CUT = [
    ('repeat 2 until killed x\nx write 2p\nend\nx write 1p', [], '1 write 0 0 1|1 write 1 0 1|1 write 2 0 1|1 write 3 0 1'),
    ('repeat 2 until killed x\nx write 2p\nend\nx write 1p', [3], '1 write 0 0 1|1 write 1 0 1|1 write 2 0 1|1 write 3 0 1'),
    ('repeat 2 until killed x\nx write 2p\nend\nx write 1p', [0], '1 write 0 0 1'),
    ('x write until /a current 2p\nx read', [2], '1 write 0 0 1|1 write 1 0 1|1 read 0 0|1 read 1 0'),
    ('repeat 2 until killed x\nx fork y{round}\nend\ny2 fork z', [1], '1 fork 2|3 fork 4'),
    ('repeat 2\nx write until /a current 2p\nend', [1, 2], '1 write 0 0 1|1 write 1 0 1|1 write 2 0 1'),
]

# A faulty scenario, and where its fault is.
FAULTY = [
    ('memory 64M\ngroup /a foo', '2:10'), ('group', '1:6'), ('group  \t/a\ngroup /a', '2:7'), ('group /a/b', '1:7'), ('group /a\nmemory 1M', '2:1'),
    ('memory 64K\nswap 1M\nmemory 64K', '3:1'), ('memory 1K', '1:8'), ('memory 257M', '1:8'), ('page 1M\nmemory 0.5M', '2:8'), ('page 3K', '1:6'),
    ('memory 1M\nwatermarks 2M 3M', '2:15'), ('watermarks 2M 1M', '1:12'), ('file f 0', '1:8'), ('file f 1\nfile f 1', '2:6'), ('fault open 1', '1:7'),
    ('placement both', '1:11'), ('let a', '1:6'), ('group /{a}', '1:7'), ('group /"{a}"{a}', '1:7'), ('group "/a', '1:7'), ('end', '1:1'),
    ('repeat 2\ngroup /a', '1:1'), ('repeat 1000001\nend', '1:8'), (GROUP + 'task x in /a', '3:6'), (GROUP + 'task write in /a', '3:6'),
    (GROUP + 'x write 5M', '3:9'), (GROUP + 'x write 1p\nx free 2p', '4:8'), (GROUP + 'x read 0..5M', '3:8'), (GROUP + 'x read 1p random 3 seed 1', '3:8'),
    (GROUP + 'x write random 3 seed 1', '3:9'), (GROUP + 'y write 1p', '3:1'), (GROUP + 'x[*] writ 1p', '3:6'), (GROUP + 'x[2] read', '3:1'),
    (GROUP + 'x fork x', '3:8'), (FILE + 'x fread g', '4:9'), (FILE + 'x fread f 0..4p', '4:11'), (GROUP + 'x write until killed y', '3:22'),
    (GROUP + 'together\nx write until killed\nend', '4:9'), (GROUP + 'together\nx exit\nend', '4:3'), (GROUP + 'together\nshow\nend', '4:1'),
    (GROUP + 'repeat 2 until killed\nend', '3:22'), (GROUP + 'repeat 2 until killed x\nx write until killed\nend', '4:9'), ('show /', '1:6'),
    ('expect in 5Q', '1:11'), ('expect refused EIO', '1:8'), (GROUP + 'expect /a events.high 1', '3:11'), (GROUP + 'x write 1.1234567M', '3:9'),
    (GROUP + 'rmdir /', '3:7'), ('group /a\ngroup /a/b\nrmdir /a', '3:7'), ('raw foo', '1:5'), ('raw 1 write 0 0', '1:16'), ('raw frames 5', '1:5'),
    ('let p 1\nshow /{p', '2:6'), (GROUP + 'x write until killed\nx write 5Q', '4:9'), (GROUP + 'x exit x', '3:8'), (GROUP + 'x read 1..1', '3:8'),
]


def expanded(text, cuts=()):
    return list(Expansion(read_scenario(text.encode()), (), cuts).script())


def faults_at(text):
    try:
        expanded(text)
    except Fault as fault:
        return f'{fault.line}:{fault.column}'
    return 'no fault'


def fault_of(text, settings):
    try:
        Expansion(read_scenario(text.encode()), settings)
    except Fault as fault:
        return told(fault, text.encode())
    return 'no fault'


def faulty_scenes():
    """The scenes that end with a fault: the scenario, the settings, and the line of the fault after the name of the file."""
    for scene in re.split('(?m)^== ', SCENES.read_text(encoding='utf-8'))[1:]:
        text, _, printed = scene.partition('\n')[2].partition('\n-- prints\n')
        fault = re.match('scene:([0-9]+:[0-9]+: .*)', printed)
        if fault:
            lines = text.split('\n')
            settings = [setting(line.removeprefix('-- set ')) for line in lines if line.startswith('-- set ')]
            yield ''.join(f'{line}\n' for line in lines if not line.startswith('-- ')), settings, fault[1]


def after_header(script):
    begin = next((at for at, line in enumerate(script) if at and line.startswith('#')), len(script))
    return '|'.join(line for line in script[begin:] if not line.startswith('#'))


def main():
    """Prints each row that is not met, and gives the status."""
    rows = [(text, after_header(expanded(text)), wanted) for text, wanted in STANDS_FOR]
    rows += [(text, ''.join(f'{line}\n' for line in expanded(text)), wanted) for text, wanted in PRINTED]
    rows += [(f'{text} {cuts}', after_header(expanded(GROUP + text, cuts)), 'group /a|task 1 /a|' + wanted) for text, cuts, wanted in CUT]
    rows += [(f'seed {seed}', drawn(0, 1000, 4, seed), wanted) for seed, wanted in DRAWN.items()]
    rows += [(text, faults_at(text), wanted) for text, wanted in FAULTY]
    scenes = list(faulty_scenes())
    rows += [(text, fault_of(text, settings), wanted) for text, settings, wanted in scenes]
    rows += [('scenes with a fault', len(scenes) > 40, True)]
    late = GROUP + 'x write until killed\nx write 1p'
    rows += [('a size after an until', faults_at(late), 'no fault')]
    wrong = [row for row in rows if row[1] != row[2]]
    for text, found, wanted in wrong:
        print(f'self-test: {text!r}: {found!r}, and not {wanted!r}')
    print(f'self-test: {len(rows)} rows, {len(wrong)} not met')
    return 1 if wrong else 0
