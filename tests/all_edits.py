#!/usr/bin/env python3
"""tests/all_edits.py [-j JOBS] [--gate] [CRATE..]: tries every must-fail edit, those of crates/*/must-fail and of tests/must-fail; of these crates, if any.

The crates are copied to a temporary folder, the edits of tests/must-fail beside their own. There each crate must be proved as it stands, and `rt must-fail`
tries its edits: the prover must refuse each. What this checkout has proved is not proved again for it, nor is an edit tried again while it and all that it
stands on are as they were. What was said of each edit stands in target/all-edits/CRATE.log. The last line is 'N passed, M failed'.

An edit shows something only if a fact no longer holds. One that merely makes a proof file unfit, so that every error says that a name or a field is not
there, has failed too: UNFIT. So has one that cannot be applied, compiled or read, or of which nothing is known.

With --gate it tries the edits of tests/must-fail/gate.txt alone; those of crates/*/must-fail are tried by `rt ci`.
"""
import argparse
import os
import re
import shutil
import signal
import subprocess
import sys
import tempfile
from pathlib import Path

ROOT = Path(__file__).resolve().parent.parent
LOG = ROOT / "target/all-edits"
GATE = ROOT / "tests/must-fail/gate.txt"
SAID = re.compile(r"^rt: must-fail (\w+)/(\S+)\.edit: (.*)$")  # of one edit; the lines behind it, up to rt's next one, belong to it
REFUSED = "refused, as it must be"
UNFIT = "only because a proof file names what the edit took away"
FAILURES = ("NOT REFUSED", "BAD EDIT", "NOT TRIED")


def all_crates():
    """The crates of crates.txt, in its order."""
    lines = (ROOT / "crates.txt").read_text().splitlines()
    return [line.split(":")[0].split()[0] for line in lines if ":" in line and not line.startswith("#")]


def edits_of(crate):
    """The files of a crate's edits, by name."""
    files = [file for folder in (f"crates/{crate}/must-fail", f"tests/must-fail/{crate}") for file in sorted((ROOT / folder).glob("*.edit"))]
    if len({file.stem for file in files}) < len(files):
        raise ValueError(f"{crate} has two edits of one name")
    return {file.stem: file for file in files}


def named_by_gate(edits, is_whole):
    """Those of the edits that gate.txt names."""
    named = GATE.read_text().split()
    chosen = {crate: {name: file for name, file in own.items() if f"{crate}/{name}" in named} for crate, own in edits.items()}
    if is_whole and sum(map(len, chosen.values())) != len(named):
        raise ValueError(f"{GATE} names an edit that is not there, or one twice")
    return chosen


def copy_crates(folder, edits):
    """Copies the crates to a folder that rt takes for the top of a repository, with these edits and no other, and without what rt made."""
    def left_out(at, names):
        return [name for name in names if name in ("out", "must-fail")] if Path(at).parent == ROOT / "crates" else []

    shutil.copytree(ROOT / "crates", folder / "crates", ignore=left_out)
    shutil.copy(ROOT / "crates.txt", folder)
    subprocess.run(["git", "init", "-q", str(folder)], check=True)
    for crate, own in edits.items():
        (folder / "crates" / crate / "must-fail").mkdir()
        for file in own.values():
            shutil.copy(file, folder / "crates" / crate / "must-fail")


def run_rt(folder, *words, **environment):
    """Whether rt passes, and what it says."""
    how = {"stdout": subprocess.PIPE, "stderr": subprocess.STDOUT, "errors": "replace", "env": {**os.environ, **environment}}
    done = subprocess.run(["rt", *words], cwd=folder, **how)
    return done.returncode == 0, done.stdout


def prove(folder, crate):
    """Whether a crate of the copy is proved as it stands, and what rt says. A library that the checkout has proved is taken from there."""
    place = folder / "crates" / crate
    return run_rt(place, "check" if (place / "src/main.rt").exists() else "lib")


def said_of(folder, crates, jobs):
    """What rt says of the edits of these crates, by crate and name, and all that it says."""
    _, said = run_rt(folder, "must-fail", *crates, **({"RT_JOBS": str(jobs)} if jobs else {})) if crates else (True, "")
    told, now = {}, None
    for line in said.splitlines():
        if found := SAID.match(line):
            now = found[1], found[2]
            told[now] = found[3]
        elif line.startswith("rt: "):
            now = None
        elif now:
            told[now] += "\n" + line
    return told, said


def amiss(text):
    """What is amiss with an edit of which rt says this, or nothing where it is refused as it should be."""
    if text.startswith(REFUSED):
        return "UNFIT" if UNFIT in text else ""
    return next((word for word in FAILURES if text.startswith(word)), "NOT UNDERSTOOD")


def main():
    parser = argparse.ArgumentParser()
    parser.add_argument("-j", type=int, help="so many checks at once; without it as many as processors and memory allow")
    parser.add_argument("--gate", action="store_true")
    parser.add_argument("crates", nargs="*")
    options = parser.parse_args()
    if strange := {*options.crates} - {*all_crates()}:
        parser.error(f"no crate of crates.txt: {' '.join(sorted(strange))}")
    edits = {crate: edits_of(crate) for crate in options.crates or all_crates()}
    if options.gate:
        edits = named_by_gate(edits, not options.crates)
    edits = {crate: own for crate, own in edits.items() if own}
    signal.signal(signal.SIGTERM, lambda *_: sys.exit(1))  # so that rt ends and the copy goes when this is ended
    shutil.rmtree(LOG, ignore_errors=True)
    LOG.mkdir(parents=True)
    passed = failed = 0
    with tempfile.TemporaryDirectory() as scratch:
        folder = Path(scratch)
        copy_crates(folder, edits)
        for crates in [[*edits]] if options.gate else [[crate] for crate in edits]:  # one edit each fills no processor, those of a whole crate do
            proofs = {crate: prove(folder, crate) for crate in crates}
            told, said = said_of(folder, [crate for crate in crates if proofs[crate][0]], options.j)
            for crate in crates:
                unknown = "NOT TRIED: " + ("rt says nothing of it" if proofs[crate][0] else "the crate is not proved as it stands")
                texts = {name: told.get((crate, name), unknown) for name in edits[crate]}
                (LOG / f"{crate}.log").write_text("".join(f"{name}: {text}\n" for name, text in texts.items()))
                wrong = [f"{amiss(text)}: {name}" for name, text in texts.items() if amiss(text)]
                print("; ".join([f"{crate}: {len(texts) - len(wrong)} of {len(texts)} refused", *wrong]), flush=True)
                passed, failed = passed + len(texts) - len(wrong), failed + len(wrong)
                if not {(crate, name) for name in edits[crate]} <= {*told}:
                    print(said if proofs[crate][0] else proofs[crate][1], end="", flush=True)
    print(f"{passed} passed, {failed} failed")
    return 1 if failed else 0


if __name__ == "__main__":
    sys.exit(main())
