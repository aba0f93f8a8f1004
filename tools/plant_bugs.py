#!/usr/bin/env python3
"""Plants bugs, one at a time, in a copy of the repository, and reports which are refused.

    python3 tools/plant_bugs.py [LIST ..] [--only TEXT] [--copy FOLDER] [--skip LOG] [--near] [--look NAMES] [--try] [--jobs N]

LIST is a file of bugs (without one: every list in tools/planted/). A bug is four lines, and a blank line follows it:

    bug: NAME: what is wrong
    file: crates/CRATE/src/FILE
    old: TEXT that stands once in the file
    new: TEXT in its place

`\\n` in a text stands for a line's end. A bug in specs/ is in the same form. One that stands in several places, as where a
definition and the code are wrong in the same way, has the three lines once for each; it is of the first file's crate.

For each bug `rt check` is run in the crate. Where that still proves it, each program above it is built with `rt run`, and
what it prints is compared with its file stdout; then the crates that rest on it are checked, with `rt test` where they are
tests. What is printed for each bug: the verdict (by what it is refused, or PROVED), and the first complaint. A text that
cannot be read or compiled has no verdict. With --near nothing but the bug's own crate is looked at, and a bug that is proved
there is LEFT for a run without it; with --look these crates are looked at behind it, in their order, and no others. With
--try nothing is proved, and the programs and tests above are run by `rt try`: this is for crates whose contracts say nothing.
The status is 1 where a bug is caught by nothing.

The copy is made once in FOLDER (/tmp/planted without it), with what `rt check` kept in each out/, so that only what a bug
touches is proved again.
"""
import argparse
import glob
import os
import re
import shutil
import subprocess
import sys
import tempfile

SECONDS = 120
# a proof that names what the bug took away says little of the contract
GONE = r"proofs/.*(has no field|is not in scope|has no `|was not admitted)"


def bugs(path):
    for block in re.split(r"\n\s*\n", open(path, encoding="utf-8").read()):
        lines = [line for line in block.split("\n") if line and not line.startswith("--")]
        if not lines:
            continue
        parts = [line.split(": ", 1)[1].replace("\\n", "\n") for line in lines]
        yield parts[0], [tuple(parts[i : i + 3]) for i in range(1, len(parts), 3)]


def crates(root):
    deps = {}
    for line in open(f"{root}/crates.txt", encoding="utf-8"):
        if ":" in line and not line.startswith("#"):
            name, rest = line.split(":")
            deps[name.strip()] = rest.split()
    return deps


def above(deps, crate):
    """The crates that rest on a crate, itself not among them, the nearest first."""
    found, ends = [], [crate]
    while ends:
        ends = [name for name, rests in deps.items() if name not in found and set(rests) & set(ends)]
        found += ends
    return found


def rt(folder, word, *more):
    done = subprocess.run(["rt", word, *more], cwd=folder, stdin=subprocess.DEVNULL, capture_output=True, text=True, errors="replace")
    return done.returncode, done.stdout.rstrip().split("\n"), done.stderr.split("\n")


def complaint(lines):
    """The first line that says what fails and where."""
    place = r"(?:note: |error: )?(?:\./)?((?:src|proofs|specs)/\S+:\d+:\d+: (?:error|it is not proved).*)"
    told = [found[1] for found in (re.match(place, line) for line in lines) if found]
    return next((line for line in told if not re.match(GONE, line)), told[0] if told else "")[:200]


def check(folder, jobs):
    """How a check of a crate ends: nothing where it is proved, else by what it is refused, and the first complaint."""
    status, lines, errors = rt(folder, "check", *jobs)
    # a note on edits that no longer fit may stand behind it
    said = next((line for line in reversed(lines) if line.startswith("logic=")), "")
    if status == 0 and said.startswith("logic=proved"):
        return "", ""
    place, name = complaint(lines + errors), os.path.basename(folder)
    if not any(line.startswith("logic=not-proved") for line in lines) or re.match(r"(src|specs)/\S+ error: (?!`)", place):
        return f"no verdict of {name}", place or next((line for line in lines + errors if "error" in line), f"status {status}")[:200]
    return f"refused by {'a proof' if place.startswith('proofs/') else 'a contract'} of {name}", place


def unbuilt(name, lines, errors):
    """Why a program or tests are not built: something that they rest on is not proved, or cannot be read."""
    if any(line.startswith("logic=not-proved") for line in lines):
        return f"refused by what {name} rests on", complaint(lines + errors)
    return f"no verdict of {name}", next((line for line in lines + errors if "error" in line), "")[:200]


def prints(folder):
    """Builds a program and runs it as the gate does, with its args and stdin, in a copy of its data/."""
    name = os.path.basename(folder)
    status, lines, errors = rt(folder, "run")
    if f"rt: running out/{name}" not in "\n".join(errors):
        return unbuilt(name, lines, errors)

    with tempfile.TemporaryDirectory() as room:
        if os.path.isdir(f"{folder}/data"):
            shutil.copytree(f"{folder}/data", room, dirs_exist_ok=True)
        words = [f"{folder}/out/{name}", *of(folder, "args").decode().splitlines()]
        try:
            done = subprocess.run(words, cwd=room, input=of(folder, "stdin"), capture_output=True, timeout=SECONDS)
        except subprocess.TimeoutExpired:
            return f"refused by the output of {name}", f"it had not ended after {SECONDS} seconds"
    return compared(folder, done.returncode, done.stdout, done.stderr)


def of(folder, file):
    return open(f"{folder}/{file}", "rb").read() if os.path.exists(f"{folder}/{file}") else b""


def compared(folder, status, printed, told):
    """What a program does against its files status and stdout."""
    name, wanted = os.path.basename(folder), of(folder, "stdout")
    if status != int(of(folder, "status") or 0):
        return f"refused by the status of {name}", f"{status}: {told.decode(errors='replace').strip()[:200].replace(chr(10), ' / ')}"
    if printed != wanted:
        got, lines = printed.split(b"\n"), wanted.split(b"\n")
        at = next((i for i, line in enumerate(got) if lines[i : i + 1] != [line]), len(got) - 1)
        return f"refused by the output of {name}", f"line {at + 1}: {got[at].decode(errors='replace')[:160]}"
    return "", ""


def tried(folder):
    """Runs a program, or tests, as `rt try` does: with no proof."""
    name, words = os.path.basename(folder), ["rt", "try"]
    for at, _, files in os.walk(f"{folder}/data"):
        inside = os.path.relpath(at, f"{folder}/data")
        words += [word for file in files for word in ("--data", f"{os.path.normpath(f'{inside}/{file}')}={at}/{file}")]
    words += ["--test"] if name.endswith("_tests") else ["--", *of(folder, "args").decode().splitlines()]
    try:
        done = subprocess.run(words, cwd=folder, input=of(folder, "stdin"), capture_output=True, timeout=10 * SECONDS)
    except subprocess.TimeoutExpired:
        return f"refused by the output of {name}", f"it had not ended after {10 * SECONDS} seconds"
    told = done.stderr.decode(errors="replace")
    lines = (told + done.stdout.decode(errors="replace")).split("\n")
    ended = re.search(r"run=ended status=(\d+)", "\n".join(lines))
    failed = [line for line in lines if "FAILED" in line]
    if name.endswith("_tests") and failed:
        return f"refused by the tests of {name}", failed[0]
    if not ended or name.endswith("_tests") and done.returncode:
        return f"no verdict of {name}", next((line for line in lines if "error" in line), told)[:200]
    return ("", "") if name.endswith("_tests") else compared(folder, int(ended[1]), done.stdout, done.stderr)


def verdict(root, deps, crate, given):
    jobs = ["--jobs", given.jobs] if given.jobs else []
    said, place = ("", "") if given.no_proof else check(f"{root}/crates/{crate}", jobs)
    if said:
        return said, place
    if given.near:
        return "LEFT", ""
    uppers = [name for name in given.look.split(",") if name] or above(deps, crate)
    programs = [name for name in [crate, *uppers] if os.path.exists(f"{root}/crates/{name}/src/main.rt")]

    def printed(name):
        file = f"{root}/crates/{name}/stdout"
        return os.path.getsize(file) if os.path.exists(file) else 0

    # the ones that print most are looked at first, since they find most
    if given.no_proof:
        for name in [*sorted(programs, key=printed, reverse=True), *(name for name in uppers if name.endswith("_tests"))]:
            said, place = tried(f"{root}/crates/{name}")
            if said:
                return said, place
        return "RAN AS BEFORE", ""
    for name in [] if given.look else sorted(programs, key=printed, reverse=True):
        said, place = prints(f"{root}/crates/{name}")
        if said:
            return said, place
    for name in uppers:
        if given.look and name in programs:
            said, place = prints(f"{root}/crates/{name}")
            if said:
                return said, place
        if name in programs or not (given.look or crate in deps[name]):
            continue
        if name.endswith("_tests"):
            status, lines, errors = rt(f"{root}/crates/{name}", "test")
            failed = [line for line in lines + errors if "FAILED" in line]
            if failed:
                return f"refused by the tests of {name}", failed[0]
            if status:
                return unbuilt(name, lines, errors)
        else:
            said, place = check(f"{root}/crates/{name}", jobs)
            if said:
                return said, place
    return "PROVED", ""


def write(root, texts):
    for name, text in texts.items():
        with open(f"{root}/{name}", "w", encoding="utf-8") as file:
            file.write(text)


def main():
    words = argparse.ArgumentParser(description=__doc__, formatter_class=argparse.RawDescriptionHelpFormatter)
    words.add_argument("lists", nargs="*", metavar="LIST", help="a file of bugs; without one every list in tools/planted/")
    words.add_argument("--only", default="", metavar="TEXT", help="only bugs that have this in their name or their file")
    words.add_argument("--copy", default="/tmp/planted", metavar="FOLDER", help="where the copy is, or is made")
    words.add_argument("--skip", metavar="LOG", help="a file of what a run printed: its bugs are passed over")
    words.add_argument("--near", action="store_true", help="check the bug's own crate alone")
    words.add_argument("--try", dest="no_proof", action="store_true", help="run programs and tests, and prove nothing")
    words.add_argument("--look", default="", metavar="NAMES", help="look at these crates behind it, with commas between them")
    words.add_argument("--jobs", metavar="N", help="how many proofs are made side by side")
    given = words.parse_args()
    if given.near and given.no_proof:
        words.error("--near proves one crate, and --try proves nothing")
    here = os.path.dirname(os.path.dirname(os.path.abspath(__file__)))
    if not os.path.exists(given.copy):
        shutil.copytree(here, given.copy, symlinks=True)
    deps = crates(given.copy)
    rows = [line.split(" | ") for line in open(given.skip, encoding="utf-8")] if given.skip else []
    told = {tuple(row[:2]) for row in rows if len(row) > 2 and row[2].startswith(("refused", "PROVED", "RAN AS BEFORE"))}
    caught = missed = 0
    for path in given.lists or sorted(glob.glob(f"{here}/tools/planted/*.txt")):
        for bug, changes in bugs(path):
            first = changes[0][0]
            if given.only not in bug + first or (bug, first) in told:
                continue
            texts, counts = {}, []
            for file, old, new in changes:
                text = texts.get(file) or open(f"{given.copy}/{file}", encoding="utf-8").read()
                counts.append(text.count(old))
                texts[file] = text.replace(old, new)
            if counts != [1] * len(changes):
                print(f"{bug} | {first} | the texts stand {counts} times", flush=True)
                missed += 1
                continue
            were = {file: open(f"{given.copy}/{file}", encoding="utf-8").read() for file in texts}
            try:
                write(given.copy, texts)
                said, place = verdict(given.copy, deps, first.split("/")[1], given)
            finally:
                write(given.copy, were)
            is_caught = said.startswith("refused")
            caught += is_caught
            missed += not is_caught
            print(f"{bug} | {first} | {said} | {place}", flush=True)
    print(f"{caught} refused, {missed} not")
    return 1 if missed else 0


if __name__ == "__main__":
    sys.exit(main())
