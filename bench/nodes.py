#!/usr/bin/env python3
"""nodes.py [subset-tests] < PLAN: how many nodes the search visits, or how many subset tests try atoms and how many steps these take together.

The proved program is run under valgrind's callgrind, which counts the calls of each function: so the count is that of the program itself. A
node is a call of `explore`, a subset test that tries atoms a call of `some_between` from elsewhere than itself, a step any call of it. The environment's SETTLE
names the program (default target/bin/settle). Behind the count stands what the first line of the sheet says.
"""
import os
import re
import subprocess
import sys
import tempfile

NODE = "searching::search::explore"
STEP = "answer_sets::smaller::some_between"


def calls(profile):
    """The calls in a callgrind file, as (caller, called, times). Names are given in full once and then by number."""
    names, caller, called = {}, "", ""
    for line in profile:
        named = re.match(r"(c?)fn=\((\d+)\)(?: (.*))?", line)
        if named:
            is_called, number, name = named.groups()
            if name:
                names[number] = name.strip().split("'")[0]
            if is_called:
                called = names[number]
            else:
                caller = names[number]
        elif line.startswith("calls="):
            yield caller, called, int(line[len("calls="):].split()[0])


def main():
    settle = os.environ.get("SETTLE", "target/bin/settle")
    with tempfile.TemporaryDirectory() as folder:
        profile = os.path.join(folder, "profile")
        valgrind = ["valgrind", "-q", "--tool=callgrind", f"--callgrind-out-file={profile}", settle]
        sheet = subprocess.run(valgrind, stdin=sys.stdin, stdout=subprocess.PIPE, stderr=subprocess.DEVNULL, check=False).stdout
        with open(profile, encoding="utf-8") as lines:
            counted = list(calls(lines))
    found = sheet.decode().splitlines()[0].replace("positions ", "", 1)
    steps = sum(times for _, called, times in counted if called == STEP)
    if "subset-tests" in sys.argv:
        print(sum(times for caller, called, times in counted if called == STEP and caller != STEP), steps, found)
    else:
        print(sum(times for _, called, times in counted if called == NODE), found)


main()
