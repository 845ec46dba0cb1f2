#!/usr/bin/env python3
"""Plants bugs in a crate's code, one at a time, and tells which of them the prover lets pass.

    tools/plant.py CRATE [--most N] [--seed S] [--file WORD] [--list]
    tools/plant.py CRATE --from FILE

Run it at the top of the repository. It works on a copy in a temporary folder: each bug becomes a must-fail edit there, and `rt must-fail` tries them.
A bug is a changed comparison, operator, range, constant, flag, condition, name or variant, a statement that is dropped or done twice, an operand that
is left out, or two arguments that are exchanged, in a line of a body. Bugs that do not compile are not counted. Each bug that passes is printed, and so
is each that is refused only because a proof file no longer fits the code. The last line has the counts. With --list the bugs are printed and not tried;
a file of such lines, as tests/planted has, is tried with --from. No line gets a second bug before each has one.
"""
import argparse
import pathlib
import random
import re
import shutil
import subprocess
import sys
import tempfile

ROOT = pathlib.Path(__file__).resolve().parent.parent
EXCHANGED = [
    (r"(?<![<=>-])<(?![<=>])", "<="), (r"<=(?!=)", "<"), (r"(?<![<=>-])>(?![<=>])", ">="), (r">=", ">"), (r"==", "!="), (r"!=", "=="),
    (r"&&", "||"), (r"\|\|(?= )", "&&"), (r"(?<= )\+(?= )", "-"), (r"(?<= )-(?= )", "+"), (r"(?<= )\*(?= )", "+"), (r"(?<= )/(?= )", "%"),
    (r"(?<= )%(?= )", "/"), (r"<<", ">>"), (r">>", "<<"), (r"(?<= )&(?= )", "|"), (r"(?<= )\^(?= )", "|"), (r"\+= ", "-= "), (r"-= ", "+= "),
    (r"\btrue\b", "false"), (r"\bfalse\b", "true"), (r"wrapping_add", "wrapping_sub"), (r"\bmin\b", "max"), (r"\bmax\b", "min"),
    (r"\.\.=", ".."), (r"\.\.(?=[\w(])", "..="), (r"\b0\.\.", "1.."), (r"\bis_some\b", "is_none"), (r"\bis_none\b", "is_some"),
    (r"\bis_ok\b", "is_err"), (r"\bany\(", "all("), (r"\ball\(", "any("), (r"\bSome\(.*\)$", "None"), (r"(?<=if )(?!let )(.*)(?= \{$)", r"!(\1)"),
]
NUMBER = r"(?<![\w.#])(0x[0-9a-fA-F_]+|\d[\d_]*)(?![\w.])"
PART = r"[\w.]+(?:\([\w., ]*\))?"
# a field of the value itself, or a constant outside of text
NAME = r"(?m)((?<=\bself\.)\w+\b(?!\()|\b[A-Z][A-Z_]+\b(?=[^\"\n]*(?:\"[^\"\n]*\"[^\"\n]*)*$))"
VARIANT = re.compile(r"\b([A-Z]\w*[a-z]\w*)::([A-Z]\w*)\b(\(?)")
NO_CODE = re.compile(r"^\s*(//|#|use |pub use |ghost |requires|ensures|\) ->|(pub(\(crate\))? )?(fn|struct|enum|mod|trait|type|impl)\b|[})\]]+[,;]?$|\{|$)")


def lines_of_code(text):
    """The numbers of the lines in bodies: outside of tests, clauses, comments and declarations."""
    clause, declared = 0, False
    for number, line in enumerate(text.split("\n")):
        if "#[cfg(test)]" in line or "#[test]" in line:
            return
        declared = line != "}" and (declared or bool(re.match(r"(pub(\(crate\))? )?(enum|struct) .*\{$", line)))
        if declared:
            continue
        if clause or re.match(r"^\s*(requires|ensures)\b", line):
            clause += line.count("{") - line.count("}")
        elif not NO_CODE.match(line):
            yield number


def replaced(line, found, other):
    return line[: found.start()] + other + line[found.end():]


def changed_signs(line):
    for pattern, other in EXCHANGED:
        for found in re.finditer(pattern, line):
            yield replaced(line, found, found.expand(other))
    for found in re.finditer(NUMBER, line):
        number, form = int(found[1].replace("_", ""), 0), hex if found[1].startswith("0x") else str
        for other in sorted({number + 1, number - 1 if number else number + 2}):
            yield replaced(line, found, form(other))
    for found in re.finditer(r'"([^"]+)"', line):
        yield replaced(line, found, f'"{found[1][1:]}"')
    for found in re.finditer(rf"({PART}) (&&|\|\||[-+*/%&|^]|<<|>>) ({PART})", line):
        yield replaced(line, found, found[1])
        yield replaced(line, found, found[3])


def changed_statements(line):
    if re.match(r"^\s*(\*?[\w.\[\]]+ [-+*|&^]?= .*|[\w.]+\(.*\)\??|return .*);\s*$", line):
        yield "// dropped"
    if re.match(r"^\s*[\w.]+\(.*\)\??;\s*$", line):
        yield f"{line.strip()} {line.strip()}"
    for found in re.finditer(r"(&?(?:mut )?[\w.]+), (&?(?:mut )?[\w.]+)(?=[,)])", line):
        if found[1] != found[2]:
            yield replaced(line, found, f"{found[2]}, {found[1]}")


def changed_names(line, variants, names):
    for found in VARIANT.finditer(line):
        others = sorted(variants[found[1], found[3]])
        for step in (1, -1):
            other = others[(others.index(found[2]) + step) % len(others)]
            yield replaced(line, found, f"{found[1]}::{other}{found[3]}")
    for found in re.finditer(NAME, line):
        for other in sorted(it for it in names if it != found[1] and it.isupper() == found[1].isupper()):
            yield replaced(line, found, other)


def bugs_of(line, variants, names):
    """The line with each bug that can be planted in it."""
    code = line.split("//")[0]
    found = [*changed_signs(code), *changed_statements(code), *changed_names(code, variants, names)]
    return [it for it in dict.fromkeys(it.strip() for it in found) if it != code.strip()]


def all_bugs(crate, word):
    """Each as its file, the number of its line, the line and what becomes of it."""
    texts = {it.relative_to(crate).as_posix(): it.read_text() for it in sorted((crate / "src").rglob("*.rt"))}
    variants = {}
    for text in texts.values():
        for found in VARIANT.finditer(text):
            variants.setdefault((found[1], found[3]), set()).add(found[2])
    for place, text in texts.items():
        lines = text.split("\n")
        code = "\n".join(lines[it] for it in lines_of_code(text))
        names = set(re.findall(NAME, code))
        for number in lines_of_code(text) if not word or word in place else ():
            for bug in bugs_of(lines[number], variants, names):
                yield place, number, lines[number].strip(), bug


def read_bugs(crate, file):
    """Those of a file, each a line as --list prints them."""
    for line in pathlib.Path(file).read_text().split("\n"):
        if found := re.match(r"(\S+?)(?::(\d+))?: (.*?) +-> +(.*)$", line):
            lines = [it.strip() for it in (crate / found[1]).read_text().split("\n")]
            number = int(found[2]) - 1 if found[2] else lines.index(found[3])
            if lines[number] != found[3]:
                sys.exit(f"{file}: {found[1]} has no such line: {line}")
            yield found[1], number, found[3], found[4]


def spread(bugs, seed):
    """In random order, but for that no line has a second bug before each has one."""
    dice, by_line = random.Random(seed), {}
    for bug in bugs:
        by_line.setdefault(bug[:2], []).append(bug)
    for some in by_line.values():
        dice.shuffle(some)
    order = [(turn, dice.random(), bug) for some in by_line.values() for turn, bug in enumerate(some)]
    return [it[2] for it in sorted(order, key=lambda it: it[:2])]


def tag(crate, bugs):
    """Gives each line that is to be changed, and does not stand alone in its file, a comment that makes it unlike all others."""
    for place in {it[0] for it in bugs}:
        text = (crate / place).read_text()
        lines = text.split("\n")
        for number, line in {it[1:3] for it in bugs if it[0] == place}:
            if text.count(line) > 1:
                lines[number] += f" // line {number}."
        (crate / place).write_text("\n".join(lines))


def tried(name, bugs):
    """What `rt must-fail` says of each bug, in a copy of the repository."""
    with tempfile.TemporaryDirectory(prefix="plant-") as folder:
        copy = pathlib.Path(folder) / "repository"
        shutil.copytree(ROOT, copy, ignore=shutil.ignore_patterns(".git", "must-fail", "target"))
        crate = copy / "crates" / name
        tag(crate, bugs)
        (crate / "must-fail").mkdir()
        for at, (place, number, old, new) in enumerate(bugs):
            tagged = (crate / place).read_text().split("\n")[number].strip()
            (crate / "must-fail" / f"{at:04}.edit").write_text(f"file: {place}\nold: {tagged}\nnew: {new}\n")
        run = subprocess.run(["rt", "must-fail", name], cwd=copy, stdout=subprocess.PIPE, stderr=subprocess.STDOUT, text=True)
    return {int(found[1]): found[2] for found in re.finditer(r"(?m)^rt: must-fail \S+/(\d{4})\.edit: (.*)$", run.stdout)}


def told(name, possible, bugs, said):
    """Prints what passed, what only a proof file refused, and the counts; returns how many passed."""
    refused = unfit = passed = 0
    for at, (place, _, old, new) in enumerate(bugs):
        word = said.get(at, "NOT TRIED")
        if word.startswith("refused"):
            by_proof = re.search(r"as it must be: (\./)?proofs/", word)
            unfit, refused = unfit + bool(by_proof), refused + (not by_proof)
            if by_proof:
                print(f"REFUSED AT ITS PROOF {place}: {old}   ->   {new}   [{word[:160]}]")
        elif not word.startswith("BAD EDIT"):
            passed += 1
            print(f"PASSED {place}: {old}   ->   {new}   [{word[:160]}]")
    compiled = refused + unfit + passed
    print(f"{name}: {compiled} of {possible} bugs planted, {refused} refused by a fact, {unfit} at a proof file, {passed} passed")
    return passed


def options_of(text, jobs=False):
    options = argparse.ArgumentParser(description=text, formatter_class=argparse.RawDescriptionHelpFormatter)
    options.add_argument("crate")
    options.add_argument("--most", type=int, default=30)
    options.add_argument("--seed", type=int, default=1)
    options.add_argument("--file", default="")
    options.add_argument("--list", action="store_true")
    options.add_argument("--from", dest="file_of_bugs")
    if jobs:
        options.add_argument("--jobs", type=int, default=2)
    return options.parse_args()


def asked_for(options):
    """How many bugs there are, and those that are to be planted."""
    crate = ROOT / "crates" / options.crate
    if options.file_of_bugs:
        bugs = list(read_bugs(crate, options.file_of_bugs))
        return len(bugs), bugs
    possible = list(all_bugs(crate, options.file))
    return len(possible), spread(possible, options.seed)[: options.most]


def main():
    options = options_of(__doc__)
    possible, bugs = asked_for(options)
    if options.list:
        for place, number, old, new in sorted(bugs):
            print(f"{place}:{number + 1}: {old}   ->   {new}")
        return
    sys.exit(told(options.crate, possible, bugs, tried(options.crate, bugs)) > 0)


if __name__ == "__main__":
    main()
