#!/usr/bin/env python3
"""kills.py PROGRAM [ROUNDS [TASKS]]: what a run keeps of tasks that were killed with their group. In each round new tasks touch a page each and end:
killed by memory.oom.group, or by an exit each. PROGRAM schedule FILE runs both; the kills may take no more memory than the exits and 256 bytes for each task.

The numbers of tasks are used once, so that no run can kill more than 63 rounds of 1,024. With a program that is not proved a round takes seconds, and its
memory is that of the run only with ASAN_OPTIONS=quarantine_size_mb=0:thread_local_quarantine_size_kb=0."""
import os
import subprocess
import sys
import tempfile

ROUNDS, TASKS = 63, 1024
MOST = 256


def lines(rounds, tasks, killed):
    yield f"frames {tasks}"
    yield f"trace {(3 * tasks + 8) * rounds}"
    yield "group /g"
    yield "set /g memory.oom.group 1"
    for begin in range(1, rounds * tasks, tasks):
        numbers = range(begin, begin + tasks)
        yield "set /g memory.max max"
        for task in numbers:
            yield f"task {task} /g"
            yield f"{task} write 0 0 1"
        if killed:
            yield "set /g memory.max 0"
        else:
            yield from (f"{task} exit" for task in numbers)
    yield "cat /g memory.current"


def run(program, rounds, tasks, killed):
    """The most memory of the run, in bytes. It must print the kills, and that nothing is charged at the end."""
    with tempfile.NamedTemporaryFile("w") as script, tempfile.TemporaryFile() as out:
        script.writelines(line + "\n" for line in lines(rounds, tasks, killed))
        script.flush()
        child = subprocess.Popen([program, "schedule", script.name], stdout=out)
        _, status, used = os.wait4(child.pid, 0)
        child.returncode = status
        out.seek(0)
        wanted = [f"killed group {begin} {tasks}" for begin in range(1, rounds * tasks, tasks)] if killed else []
        if status != 0 or out.read().decode().split("\n") != wanted + ["0", ""]:
            sys.exit(f"kills: a script of {rounds} rounds ends with {status}, or prints something else")
    return used.ru_maxrss * 1024


def fault(program, rounds=ROUNDS, tasks=TASKS):
    """What is wrong, or nothing; and both numbers of bytes."""
    killed, ended = (run(program, rounds, tasks, it) for it in (True, False))
    if killed > ended + MOST * rounds * tasks:
        return f"{rounds} kills of {tasks} tasks take {killed >> 20} MiB, and as many exits {ended >> 20}", killed, ended
    return None, killed, ended


if __name__ == "__main__":
    why, *both = fault(sys.argv[1], *map(int, sys.argv[2:]))
    print(f"kills: {both[0] >> 20} MiB, exits: {both[1] >> 20} MiB")
    sys.exit(why)
