#!/usr/bin/env python3
"""Counts, for each point of docs/DESIGN-PASS.md, the places in crates/*/src that it speaks of.

    tools/design_counts.py           the counts, point by point
    tools/design_counts.py --places  each place too

It goes by text: it finds candidates, and the page says of each whether it is one.
"""
import collections
import glob
import os
import re
import sys

os.chdir(os.path.join(os.path.dirname(os.path.abspath(__file__)), ".."))
SOURCES = sorted(glob.glob("crates/*/src/*.rt"))
PROOFS = sorted(glob.glob("crates/*/proofs/**/*.antt", recursive=True))
CODE = {path: re.sub(r"//[^\n]*", "", open(path).read()) for path in SOURCES}


def search(pattern):
    """Every match in the code without comments and imports: (path, line number, text)."""
    found = []
    for path, code in CODE.items():
        for number, line in enumerate(code.split("\n"), 1):
            if re.match(r"\s*(ghost )?use |\s*(pub )?const |\s*// ", line):
                continue
            for match in re.finditer(pattern, line):
                found.append((path, number, match.group(0).strip()))
    return found


def functions():
    """(path, name, parameters, clauses) of each function: clauses are (requires or ensures, text)."""
    found = []
    for path, code in CODE.items():
        for match in re.finditer(r"\bfn (\w+)[^({;]*\(", code):
            start = end = match.end()
            depth = 1
            while depth:
                depth += (code[end] in "([") - (code[end] in ")]")
                end += 1
            place, clauses = end, []
            clause = re.compile(r"[^{};]*?\b(requires|ensures)\s*\w*\s*\{")
            while head := clause.match(code, place):
                place, depth = head.end(), 1
                while depth:
                    depth += (code[place] == "{") - (code[place] == "}")
                    place += 1
                clauses.append((head.group(1), " ".join(code[head.end() : place - 1].split())))
            found.append((path, match.group(1), code[start : end - 1], clauses))
    return found


def parts(clause):
    """The facts of a clause: what stands between × outside parentheses."""
    out, depth, now = [], 0, ""
    for sign in clause:
        depth += (sign in "([") - (sign in ")]")
        if sign == "×" and depth == 0:
            out.append(now)
            now = ""
        else:
            now += sign
    out.append(now)
    facts = []
    for fact in (one.strip() for one in out):
        inner = fact[1:-1].strip()
        closed = fact.startswith("(") and fact.endswith(")") and inner.count("(") == inner.count(")")
        facts += parts(inner) if closed and "×" in fact else [inner if closed else fact]
    return facts


def shared_facts():
    """Facts that three or more functions require, by the functions."""
    where = collections.defaultdict(set)
    for path, name, _, clauses in functions():
        for kind, clause in clauses:
            if kind == "requires":
                for fact in parts(clause):
                    where[re.sub(r"\.(old|now|new)\b", "", fact)].add((path, name))
    return {fact: names for fact, names in where.items() if len(names) >= 3}


def travelling():
    """Functions with six or more parameters."""
    found = []
    for path, name, parameters, _ in functions():
        count = len([one for one in re.split(r",\s*(?![^<\[]*[>\]])", parameters) if one.strip()])
        if count >= 6:
            found.append((path, name, f"{name}: {count} parameters"))
    return found


def proof_lines(pattern):
    found = []
    for path in PROOFS:
        for number, line in enumerate(open(path), 1):
            found += [(path, number, one.group(0)[:60]) for one in re.finditer(pattern, line)]
    return found


KINDS = r"\b(CONTAINER|RAM|MMIO|ALIAS|MANAGED)\b"
OWN = r"^\s*(?:pub )?enum \w+"
POINTS = [
    ("1 enums", search(OWN)),
    ("1 an answer or a stop beside a value", search(r"^\s*pub (answer|stop|outcome): .*|\bstop != 0|refused != 0|number == 0")),
    ("1 numbers for kinds", [one for one in search(r"(?<![\w:])" + KINDS)]),
    ("1 numbers for refusals", search(r"\brefusal::[A-Z]+")),
    ("2 functions for one of two or more of a sort", search(
        r"\bfn (region_count|count_of|put_region_count|put_count|region_from|range_from|region_at|range_at|put_region|put_range"
        r"|copy_words|copy_bytes|number_of|say|say_one|say_two|say_three|bytes_from|places_from|bytes_apart|places_apart"
        r"|number_apart|read_bytes|find_places|route|route_without_device|route_all|route_all_without_device|with_run|run_is"
        r"|none_set|all_set|pin|unpin|set_requested_size|system_reset|lowest_fault|first_pair|read_full)\b")),
    ("3 loops that count", search(r"\bwhile \w.*|\bfor \w+ in [^{]*\.\.[^{]*")),
    ("4 conversions, comparisons and copies by hand", search(
        r"\bfn (accepts|is_accepted|is_ack|is_kind|number_of|wide|least|larger|flag|copy_words|copy_bytes|table_of|type_of|state_of"
        r"|digit|put_hex|put_decimal|put_all|queue_of|queue_fits|put_queue|device_of|words_of|say_\w+|request_bytes|block_ok|size_ok)\b")),
    ("5 functions with six parameters or more", travelling()),
    ("6 a place or a length beside a buffer", search(r"fn \w+\((?:text|out|words|answers): &mut \[\w+\], at: usize.*|pub (readable|writable|count): usize")),
    ("7 a value that says which step to run", search(r"rule: \w+Rule|match rule\b|on: bool")),
    ("8 facts said inline in answers", proof_lines(r"\(let it :")),
    ("8 proof lines over 700 signs", proof_lines(r"^.{701,}")),
]


def main():
    places = "--places" in sys.argv
    for name, found in POINTS:
        by = collections.Counter(path.split("/")[1] for path, _, _ in found)
        print(f"{name}: {len(found)}  ({', '.join(f'{crate} {n}' for crate, n in sorted(by.items()))})")
        if places:
            for path, number, text in found:
                print(f"    {path}:{number}: {text}")
    facts = shared_facts()
    print(f"5 facts that three or more functions require: {len(facts)}, in {sum(map(len, facts.values()))} functions")
    for fact, names in sorted(facts.items(), key=lambda one: -len(one[1])):
        print(f"    {len(names):3} {fact}")


main()
