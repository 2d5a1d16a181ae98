#!/usr/bin/env python3
"""Makes docs/GATE.md, the whole of it, from what a run of the gate printed. What is to be said of it by hand stands in docs/DECISIONS.md,
"The gate".

    ( time .ci/run ) > gate.log 2>&1
    python3 checks/gate.py gate.log > docs/GATE.md

A run takes what an earlier one on the same machine passed, and then proves little: the page says how much was done in the run.
"""
import re
import sys

CRATE = re.compile(r"^rt: (\w+) (proved$|is kept: )", re.M)
EDIT = re.compile(r"^rt: must-fail (\w+)/([\w.-]+)\.edit: refused, as it must be: (?:note: )?(?:\./)?(\S+:\d+:\d+): (.*)$", re.M)
# `rt ci` cuts the line off, so the goal's own end may not be there
GOAL = re.compile(r"(?:error: |it is not proved .*?\()`([^`]+)")
RAN = re.compile(r"^rt: (\w+) ran\b", re.M)
OK = re.compile(r"^rt: ok; .*?must-fail edits: (\d+) refused[^;\n]*; (.*)$", re.M)
LAST = re.compile(r"^\d+ passed, \d+ failed$", re.M)
REAL = re.compile(r"^real\s+(\d+)m([\d.]+)s$", re.M)
USER = re.compile(r"^user\s+(\d+)m([\d.]+)s$", re.M)
SYSTEM = re.compile(r"^sys\s+(\d+)m([\d.]+)s$", re.M)

PAGE = """# The gate's time

From one whole run: {last}, {real} by the clock, {user} of processor time, and {system} of the system's besides. {done} A script makes this
page; docs/DECISIONS.md, "The gate", says what was left out of it, and why.

    ( time .ci/run ) > gate.log 2>&1
    python3 checks/gate.py gate.log > docs/GATE.md

| Crate | Edits | In this run |
|---|---|---|
{rows}
| all | {edits} | |

## The edits

Where the first error stands, and the goal or the statement that it is in.

| Edit | First error | In |
|---|---|---|
{edit_rows}

## The programs

{ran}.
"""


def clock(found):
    minutes, seconds = int(found[1]), round(float(found[2]))
    return f"{minutes} min {seconds} s"


def main():
    log = open(sys.argv[1]).read()
    crates = [(name, "proved" if said == "proved" else "kept") for name, said in CRATE.findall(log)]
    edits = EDIT.findall(log)
    refused, done = OK.search(log).groups()
    assert int(refused) == len(edits), "not every edit was refused at a place in a file in this run: rt ci --anew tries all"
    rows = [f"| {name} | {sum(edit[0] == name for edit in edits)} | {said} |" for name, said in crates]
    within = [f"`{found[1]}`" if (found := GOAL.match(text)) else "" for _, _, _, text in edits]
    print(PAGE.format(
        last=LAST.findall(log)[-1], real=clock(REAL.search(log)), user=clock(USER.search(log)), system=clock(SYSTEM.search(log)),
        done=done[0].upper() + done[1:] + ".", rows="\n".join(rows), edits=len(edits),
        edit_rows="\n".join(f"| `{crate}/{name}` | `{place}` | {what} |" for (crate, name, place, _), what in zip(edits, within)),
        ran=", ".join(dict.fromkeys(RAN.findall(log)))), end="")


if __name__ == "__main__":
    main()
