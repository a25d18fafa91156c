"""Counts the instructions of a run by valgrind. The same program and script give the same number, whatever else the machine does."""
import re
import shutil
import subprocess
import sys


def has_valgrind():
    return shutil.which("valgrind") is not None


def instructions(program, script):
    """The instructions of `program schedule script`, with its start and the reading of the script."""
    words = ["valgrind", "--tool=cachegrind", "--cache-sim=no", "--cachegrind-out-file=/dev/null", program, "schedule", script]
    ran = subprocess.run(words, stdout=subprocess.DEVNULL, stderr=subprocess.PIPE, text=True)
    counted = re.search(r"I\s+refs:\s+([\d,]+)", ran.stderr)
    if ran.returncode != 0 or not counted:
        sys.exit(f"bench: valgrind ended with {ran.returncode}: {ran.stderr[-500:]}")
    return int(counted[1].replace(",", ""))
