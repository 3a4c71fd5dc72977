#!/usr/bin/env python3
"""Brings the names of definitions and lemmas to one spelling: words in snake case, types and modules in camel case. Run once, after the kit's
own script had turned the rest; kept so that the step can be made again. Names of functions in src/, exported names, strings, inputs and outputs
stay as they are."""
import re
import sys
from collections import defaultdict
from pathlib import Path

ROOT = Path(sys.argv[1] if len(sys.argv) > 1 else Path(__file__).resolve().parent.parent)
CRATES = ROOT / "crates"
WORD = re.compile(r"[^\s(){}\[\],;.@`\"]+")
# SOLAS's own letters stay capital, and `exact` and `partial` stand before one
LETTERS = {
    "bB": "b_B", "bBB": "b_BB", "bbB": "bb_B", "dA": "d_A", "partialA": "partial_A", "exactA": "exact_A", "passengerR": "passenger_R",
    "rowsV": "rows_v", "rowVs": "row_vs", "layerV": "layer_v", "sMom⁴": "s_mom⁴",
}

# lemmas that the kit's script had turned to the name that a definition gets here, by file
SCOPED = {
    "casefile/proofs/Order.antt": {"at_top": "at_top_lem"},
    "printing/proofs/Written.antt": {"written_in": "written_in_lem"},
    "printing/proofs/write_refusal/Proof.antt": {"written_in": "written_in_lem"},
    "casefile/proofs/Passing.antt": {"end_line": "end_line_lem"},
    "casefile/proofs/Soundness.antt": {"end_line": "end_line_lem"},
    "hexadecimal/proofs/Examples.antt": {"end_line": "end_line_lem"},
    "casefile/proofs/Steps.antt": {"no_line": "no_line_lem"},
    "casefile/proofs/Turns.antt": {"no_line": "no_line_lem"},
    "reader/proofs/CodeRunning.antt": {"no_line": "no_line_lem"},
    "promises/proofs/CaseLayers.antt": {"in_group": "in_group_lem"},
}


def snake(name):
    if name in LETTERS:
        return LETTERS[name]
    parts = name.split("-")
    for place, part in enumerate(parts):
        if re.match(r"[a-z]", part) and re.search(r"[a-z0-9][A-Z]", part):
            parts[place] = re.sub(r"(?<=[a-z0-9])([A-Z])", lambda m: "_" + m.group(1).lower(), part)
    return "_".join(parts) if len(parts) > 1 else parts[0]


def wants(name):
    return ("-" in name.strip("-") and not re.fullmatch(r"[^\w]+", name)) or re.search(r"^[a-z]+[a-z0-9]*[A-Z]", name) is not None


def files(*patterns):
    return sorted(path for pattern in patterns for path in CRATES.glob(pattern))


def declarations():
    """Each name that specs/ and proofs/ declare, with the files; not those of a proof that walks the code, which the check itself asks for."""
    own, foreign = defaultdict(set), set()
    for path in files("*/specs/**/*.antt", "*/proofs/**/*.antt"):
        text = path.read_text(encoding="utf-8")
        for module, items in re.findall(r"^(?:ghost )?use\s+([^\s{;]+)\.\{([^}]*)\}", text, re.M):
            if not module.startswith("Rattle.") or module.startswith(("Rattle.std", "Rattle.core")):
                foreign.update(word for item in items.split(",") for word in item.split(" as ") if word.strip() for word in [word.strip()])
        for line in text.splitlines():
            line = line.strip()
            if line.startswith(("--", "use ")):
                continue
            found = re.match(r"(?:(?:abbrev|unfoldable|opaque|pub|let)\s+)*((?:[^\s(){}\[\],;:.]+\s+)*[^\s(){}\[\],;:.]+)\s+:(?:\s(.*)|$)", line)
            if found and not (found.group(2) or "").startswith("tie."):
                for name in found.group(1).split():
                    own[name].add(path)
            found = re.match(r"(?:pub\s+)?(?:record|data)\s+(?:pub\s+)?([^\s(){}\[\],;:.]+)", line)
            if found:
                own[found.group(1)].add(path)
    return own, foreign


def renames():
    own, foreign = declarations()
    turned = {name: snake(name) for name in own if wants(name) and name not in foreign and name not in LETTERS}
    turned.update({name: new for name, new in LETTERS.items() if name in own})
    turned = {name: new for name, new in turned.items() if name != new}
    by_new = defaultdict(set)
    for name, new in turned.items():
        by_new[new].add(name)
    # a lemma that would have its definition's name gets `_lem`
    for new, names in by_new.items():
        lemmas = {name for name in names if "-" in name}
        if lemmas and (len(names) > 1 or new in own or new in foreign):
            assert len(lemmas) == 1, names
            turned[lemmas.pop()] = new + "_lem"
        elif len(names) > 1 or new in own or new in foreign:
            print("stands elsewhere too:", sorted(names), "->", new, sorted(str(path.relative_to(CRATES)) for path in own.get(new, ())))
    again = [new for new in turned.values() if list(turned.values()).count(new) > 1]
    assert not again, again
    return turned


def turn(text, names):
    def one(found):
        word = found.group(0)
        if text[max(0, found.start() - 4):found.start()] == "tie.":
            return word
        return names.get(word, word)
    return WORD.sub(one, text)


def in_antt(text, names, camel):
    out = []
    for line in text.split("\n"):
        code, dashes, comment = line.partition("--") if re.search(r"(^|\s)--(\s|$)", line) else (line, "", "")
        out.append(turn(code, names) + dashes + turn(comment, camel))
    return "\n".join(out)


def in_pages(text, names):
    """A page names definitions between backticks only."""
    return re.sub(r"`[^`\n]+`", lambda found: "`" + turn(found.group(0)[1:-1], names) + "`", text)


def main():
    for file, scoped in SCOPED.items():
        path = CRATES / file
        path.write_text(in_antt(path.read_text(encoding="utf-8"), scoped, {}), encoding="utf-8")
    names = renames()
    camel = {name: new for name, new in names.items() if "-" not in name}
    for path in files("*/specs/**/*.antt", "*/proofs/**/*.antt"):
        text = path.read_text(encoding="utf-8")
        new = in_antt(text, names, camel)
        if new != text:
            path.write_text(new, encoding="utf-8")
    for path in files("*/src/**/*.rt", "*/must-fail/*.edit"):
        text = path.read_text(encoding="utf-8")
        new = turn(text, names if path.suffix == ".edit" else camel)
        if new != text:
            path.write_text(new, encoding="utf-8")
    for path in [*ROOT.glob("*.md"), *(ROOT / "docs").rglob("*.md")]:
        text = path.read_text(encoding="utf-8")
        new = in_pages(text, names)
        if new != text:
            path.write_text(new, encoding="utf-8")
    print(len(names), "names respelled")


if __name__ == "__main__":
    main()
