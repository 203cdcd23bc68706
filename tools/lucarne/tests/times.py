#!/usr/bin/env python3
"""tools/lucarne/tests/times.py [PROGRAM] [RUNS]: the processor's time of `lucarne list` beside that of `clingo 0`, what they start included.

Each is run so many times, in turn, so that a busy machine is as busy for all of them. The figures are medians: milliseconds, user and system together, and
how much that is of clingo's in the same turn. An empty program stands beside them: less than it takes no program can take. Not in the gate.
"""
import glob
import os
import statistics
import subprocess
import sys
import tempfile

TOOL = sys.argv[1] if len(sys.argv) > 1 else "target/lucarne/lucarne"
RUNS = int(sys.argv[2]) if len(sys.argv) > 2 else 200
WARM = 3  # runs that do not count
VARIABLES = "track(1..3).\n{ up(X) } :- track(X).\nclear(X) :- track(X), up(X), not up(X+1).\n"


def time(command):
    """Milliseconds of the processor that a command takes, with all that it waits for."""
    null = os.open(os.devnull, os.O_RDWR)
    actions = [(os.POSIX_SPAWN_DUP2, null, number) for number in range(3)]
    process = os.posix_spawnp(command[0], command, os.environ, file_actions=actions)
    usage = os.wait4(process, 0)[2]
    os.close(null)
    return (usage.ru_utime + usage.ru_stime) * 1000


def compare(what, sheets, others):
    """Tells the times on these sheets: clingo's, the tool's, and those of other commands."""
    commands = [["clingo", "0", *sheets], [TOOL, "list", *sheets], *others]
    times = [[time(command) for command in commands] for _ in range(WARM + RUNS)][WARM:]
    print(what)
    for number, command in enumerate(commands):
        alone, of_clingo = statistics.median(turn[number] for turn in times), statistics.median(turn[number] / turn[0] for turn in times)
        print(f"    {alone:7.3f} ms  {of_clingo:5.2f} of clingo  {' '.join(command)[:60]}")


def main():
    with tempfile.TemporaryDirectory() as folder:
        with open(f"{folder}/variables.lp", "w") as sheet:
            sheet.write(VARIABLES)
        with open(f"{folder}/empty.c", "w") as source:
            source.write("int main(void) { return 0; }\n")
        subprocess.run(["cc", "-O2", "-static", f"{folder}/empty.c", "-o", f"{folder}/empty"], check=True)
        gringo = ["gringo", "--output=intermediate"]
        yard, north = sorted(glob.glob("plans/yard/*.lp")), sorted(glob.glob("plans/north/*.lp"))
        compare("one ground sheet", ["plans/found/clingo-default-adds-four.lp"], [[TOOL, "--version"], [f"{folder}/empty"]])
        compare("five ground sheets", north, [])
        compare("one sheet with variables", [f"{folder}/variables.lp"], [[*gringo, f"{folder}/variables.lp"]])
        compare("two sheets with variables", yard, [[*gringo, *yard]])


if __name__ == "__main__":
    main()
