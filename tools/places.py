#!/usr/bin/env python3
"""Counts, in the crates' src/, the places that docs/DESIGN-PASS.md speaks of, point by point, and names each: tools/places.py [TREE]."""
import collections
import re
import sys
from pathlib import Path

TREE = Path(sys.argv[1] if len(sys.argv) > 1 else Path(__file__).resolve().parent.parent)
CODES = r"\b(kind|rule|roro|number|verdict|hull): u64\b"
WORDS = {"let", "mut", "if", "else", "return", "while", "for", "in", "match", "as", "fn", "pub", "struct", "true", "false", "u8", "u64", "i64", "usize", "bool"}


def items():
    """Each function and each struct or enum: crate, name, head, contract, body."""
    for path in sorted(TREE.glob("crates/*/src/**/*.rt")):
        text = re.sub(r"^\s*//.*$", "", path.read_text(encoding="utf-8"), flags=re.M)
        crate = path.relative_to(TREE / "crates").parts[0]
        for found in re.finditer(r"^( *)(?:pub )?(?:(?:extern \"C\" )?fn|struct|enum) (\w+)", text, re.M):
            rest = text[found.start():]
            close = re.search("^" + found.group(1) + "}$", rest, re.M)
            whole = rest[: close.end()] if close else rest
            clauses = re.findall(r"^ *(?:requires|ensures)\*? .*$", whole, re.M)
            plain = re.sub(r"^ *(?:requires|ensures)\*? .*\n", "", whole, flags=re.M)
            head, _, body = plain.partition("{")
            exported = 'extern "C"' in head
            yield crate, found.group(2), head, clauses, body, exported


def shape(body):
    return re.sub(r"\s+", " ", re.sub(r"[A-Za-z_]\w*", lambda m: m.group() if m.group() in WORDS else "x", re.sub(r"\b\d[\d_]*\b", "0", body))).strip()


def report(point, what, found):
    print(f"{point}  {what}: {len(found)}")
    for line in found:
        print(f"     {line}")


def main():
    every = list(items())
    functions = [i for i in every if re.search(r"\bfn\b", i[2])]
    types = [i for i in every if not re.search(r"\bfn\b", i[2])]
    own = [i for i in functions if not i[5]]

    report(1, "enums", [f"{c}: {n}" for c, n, head, _, _, _ in types if "enum" in head])
    report(1, "fields that are codes", [f"{c}: {n}.{code}" for c, n, head, _, body, _ in types for code in re.findall(CODES, body)])
    report(1, "functions that take or give a code", [f"{c}: {n}" for c, n, head, _, _, _ in own if re.search(CODES, head) or re.search(r"(number|number_of|verdict)\([^)]*\)\s*->\s*u64", head)])
    report(1, "functions that give 0 for none", [f"{c}: {n}" for c, n, head, _, body, _ in own if re.search(r"->\s*usize", head) and "return 0;" in body and c not in ("hulls", "rowlines")])

    shapes = collections.defaultdict(list)
    for c, n, _, _, body, _ in own:
        if len(shape(body)) > 25:
            shapes[shape(body)].append(f"{c}::{n}")
    report(2, "functions of one shape", [" ~ ".join(v) for v in shapes.values() if len(v) > 1])
    layouts = collections.defaultdict(list)
    for c, n, head, _, body, _ in types:
        if "struct" in head:
            layouts[tuple(re.findall(r"\w+: ([^,\n]+),", re.sub(r"^ *(pub )?ghost .*$", "", body, flags=re.M)))].append(f"{c}::{n}")
    report(2, "structs of one layout", [" ~ ".join(v) for k, v in layouts.items() if len(v) > 1 and k])
    report(2, "functions that do one thing for 0, 1 and 2", [f"{c}: {n}" for c, n, _, _, body, _ in own if all(re.search(rf"\w\[{k}\]", body) for k in (0, 1, 2)) and not re.search(r"\w\[3\]", body)])
    minima = [f"{c}: {n}" for c, n, _, _, body, _ in own if re.search(r"if (\w+) <=? (\w+) \{\s*(\1|\2)\s*\} else \{\s*(\1|\2)\s*\}", body)]
    report(2, "minima of one type", minima)

    report(3, "loops with while", [f"{c}: {n}" for c, n, _, _, body, _ in functions for _ in re.findall(r"\bwhile\b", body)])

    zeros = []
    for c, n, _, _, body, _ in own:
        for literal in re.findall(r"\b[A-Z]\w+ \{((?:\s*\w+: (?:0|false|\[0, 0, 0\]|\[0; 21\]),?)+)\s*\}", body):
            zeros.append(f"{c}: {n}")
    report(4, "values of zeros written out", zeros)
    report(4, "comparisons field by field", [f"{c}: {n}" for c, n, _, _, body, _ in own if re.search(r"\.(\w+) == \w+\.\1\) & \(", body)])
    report(4, "numbers put together from bytes, or signs told, by hand", [f"{c}: {n}" for c, n, _, _, body, _ in own if re.search(r"\* 256 \+|\* 65536 \+|\+ 32768\)|/ 256, |/ 65536, ", body)])
    report(4, "minima, differences not below 0 and quotients rounded up, by hand", minima + [f"{c}: {n}" for c, n, _, _, body, _ in own if re.search(r"if \w+ <= \w+ \{ 0 \} else \{ \w+ - \w+ \}|% d == 0 \{ n / d \} else|if k < 0 \{", body)])

    facts = collections.defaultdict(set)
    for c, n, _, clauses, _, _ in functions:
        for clause in clauses:
            found = re.match(r" *requires (?:\w+ )?\{ (.*) \}", clause)
            for fact in found.group(1).split(" × ") if found else []:
                facts[fact.strip("()")].add(f"{c}::{n}")
    report(5, "facts in the contracts of three functions or more", [f"{len(v)}: {k}" for k, v in sorted(facts.items(), key=lambda x: -len(x[1])) if len(v) > 2])
    report(5, "functions of six parameters or more", [f"{c}: {n}" for c, n, head, _, _, _ in own if len(re.findall(r"\w+: ", head[head.find("("):])) > 5])

    report(6, "structs with two arrays of one length", [f"{c}: {n}" for c, n, _, _, body, _ in types if any(v > 1 for v in collections.Counter(re.findall(r": \[\w+; (\w+)\]", body)).values())])
    report(6, "slices with a count beside them", [f"{c}: {n}" for c, n, head, _, _, _ in own if re.search(r"&(mut )?\[\w+\], (rows|count|m|n): (usize|u64)", head)])
    report(6, "stores number by number", [f"{c}: {n}" for c, n, _, _, body, _ in functions if len(re.findall(r"^\s*\w+\[[^\]]*\] = ", body, re.M)) > 1])


if __name__ == "__main__":
    main()
