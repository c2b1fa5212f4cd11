#!/usr/bin/env python3
"""Brings the repository's own names in specs/, proofs/, clauses, must-fail edits and pages to snake case.

    tools/respell.py        once, at the top, after port.py

Definitions, lemmas, fields and variables: `mapOf` becomes `map_of`, and `words-full` becomes `words_full`. Names of Rattle's own
library, which a file imports from elsewhere, names that Rattle makes (answers of goals), types, modules, and functions of src/
keep theirs. A module `Contracts` becomes `Promises`, since Rattle makes a module `contracts`. Prints names that would fall together.
"""
import re
import subprocess
import sys
from collections import defaultdict
from pathlib import Path

ROOT = Path(__file__).resolve().parent.parent
CRATES = [line.split(":")[0] for line in (ROOT / "crates.txt").read_text().splitlines() if ":" in line]
TOKEN = re.compile(r"[^\s(){}\[\];,.«»\"`:=|&!<>*]+")
DECLARED = re.compile(r"^\s*(?:(?:abbrev|unfoldable|pub|syntax)\s+)*([^\s:(){}]+)\s+:\s")
OURS = re.compile(r"^(pub )?use Rattle\.(%s)\.(specs|proofs)\." % "|".join(CRATES))
MADE = re.compile(r"\.(declared\.|Goals|Given|Tie|Statement|Lts|Calls)")


def snake(name):
    if not re.match(r"^[A-Za-z_][\w'-]*$", name):
        return name
    if re.match(r"^[a-z_]", name):
        name = re.sub(r"(?<=[a-z0-9])([A-Z])(?=[a-z0-9_'-]|$)", lambda m: "_" + m[1].lower(), name)
    return name.replace("-", "_")


def code(line):
    """A line without its comment, and the comment."""
    at = re.search(r"(^|\s)--(\s|$)", line)
    return (line[:at.start()], line[at.start():]) if at else (line, "")


def antt_files():
    for crate in CRATES:
        yield from sorted((ROOT / "crates" / crate / "specs").rglob("*.antt"))
        yield from sorted((ROOT / "crates" / crate / "proofs").rglob("*.antt"))


def is_answers(path):
    return path.name in ("Proof.antt", "Answers.antt", "Invariants.antt") and path.parent.name != "proofs"


def elsewhere(text):
    """The names that a file has from outside the repository, or from what Rattle makes."""
    names = set()
    for m in re.finditer(r"^(?:pub )?use ([^\n{]*)(?:\{([^}]*)\})?", text, re.M):
        if OURS.match(m[0]) and not MADE.search(m[1]):
            continue
        for item in (m[2] or m[1].split(".")[-1]).split(","):
            words = item.split()
            if len(words) == 3:      # `a as b`: a is theirs, b is ours
                names.add(words[0])
            elif words:
                names.add(words[0])
    return names


def declared_in(path, text):
    names = set()
    for line in text.splitlines():
        m = DECLARED.match(code(line)[0])
        if m and not (is_answers(path) and re.search(r": (tie|goal)\.", line)) and not m[1].endswith("-spec"):
            names.add(m[1])
    return names


def main():
    texts = {path: path.read_text() for path in antt_files()}
    own = {path: declared_in(path, text) for path, text in texts.items()}
    shared = set()
    for path, names in own.items():
        if not is_answers(path):
            shared |= names
    for path, names in own.items():
        by = defaultdict(set)
        for name in names:
            by[snake(name)].add(name)
        for new, olds in by.items():
            if len(olds) > 1:
                print("falls together: %s: %s" % (path.relative_to(ROOT), sorted(olds)))

    # A lemma that would have its function's name gets `_lem`.
    words = {n for path, names in own.items() if path.parent.name == "specs" for n in names if "-" not in n}
    words = words | {snake(n) for n in words}

    def new_name(t):
        return snake(t) + "_lem" if "-" in t and snake(t) in words else snake(t)

    def turn(text, names, theirs, camel=True):
        def one(m):
            t = m[0]
            if t in theirs:
                return t
            if t.endswith("-spec"):
                return t.replace("-", "_")
            if t in names or camel and re.match(r"^[a-z_]\w*[a-z0-9][A-Z]\w*'?$", t):
                return new_name(t)
            return t
        return TOKEN.sub(one, text)

    for path, text in texts.items():
        theirs = elsewhere(text)
        names = shared | own[path]
        lines = []
        for line in text.split("\n"):
            body, comment = code(line)
            if re.match(r"^(pub )?use (?!Rattle\.(%s)\.)" % "|".join(CRATES), body) or MADE.search(body) and body.startswith("use"):
                # of a name taken from elsewhere under another one, the other one is ours
                body = re.sub(r"( as )([^\s,}]+)", lambda m: m[1] + snake(m[2]), body)
            else:
                body = turn(body, names, theirs)
            comment = re.sub(r"`[^`]*`", lambda m: turn(m[0], names, set()), comment)
            lines.append(body + comment)
        out = "\n".join(lines)
        for m in re.finditer(r"^(?:pub )?use [^\n{]*\{([^}]*)\}", out, re.M):
            items = [i.split()[-1] for i in m[1].split(",") if i.strip()]
            for i in set(items):
                if items.count(i) > 1:
                    print("imported twice: %s: %s" % (path.relative_to(ROOT), i))
        path.write_text(re.sub(r"\b(specs\.)Contracts\b|^(pub mod )Contracts\b", lambda m: (m[1] or m[2]) + "Promises", out, flags=re.M))

    for crate in CRATES:
        folder = ROOT / "crates" / crate
        for path in sorted((folder / "src").rglob("*.rt")):
            lines = []
            for line in path.read_text().split("\n"):
                at = line.find("//")
                body, comment = (line, "") if at < 0 else (line[:at], line[at:])
                if '"' not in body:
                    body = turn(body, shared, set())
                comment = re.sub(r"`[^`]*`", lambda m: turn(m[0], shared, set()), comment)
                lines.append(body + comment)
            path.write_text("\n".join(lines).replace(".specs.Contracts.", ".specs.Promises."))
        for path in sorted((folder / "must-fail").glob("*.edit")) if (folder / "must-fail").exists() else []:
            text = path.read_text()
            head, _, rest = text.partition("\n")
            path.write_text(head.replace("Contracts.antt", "Promises.antt") + "\n" + turn(rest, shared, set()))
        contracts = folder / "specs" / "Contracts.antt"
        if contracts.exists():
            subprocess.run(["git", "mv", str(contracts), str(contracts.with_name("Promises.antt"))], cwd=ROOT, check=True)

    known = {new_name(n) for n in shared}
    for path in [ROOT / "README.md", *sorted((ROOT / "docs").glob("*.md")), *sorted((ROOT / "tests").rglob("*.md"))]:
        def page(m):
            return TOKEN.sub(lambda t: new_name(t[0]) if new_name(t[0]) in known and snake(t[0]) != t[0] else t[0], m[0]).replace("Contracts.antt", "Promises.antt")
        path.write_text(re.sub(r"`[^`\n]*`", page, path.read_text()))


main()
