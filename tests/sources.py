"""What files of Rattle declare, for the tests that look over the tree: public functions with their clauses, and statements."""

import re

FUNCTION = re.compile(r'^[ \t]*pub(?:\(crate\))? (?:extern "C" )?fn (\w+)', re.M)
# a body's brace: on a line of its own or with what it holds, or right behind a signature that has no clauses; a clause's brace stands behind its word
BODY = re.compile(r"\n[ \t]*\{|\)\s*(?:->[^{\n]*)?\{")
STATEMENT = re.compile(r"^(?:abbrev )?pub (\S+) : Type [01]$", re.M)
RECORD = re.compile(r"^pub record (\S+) : Type [01] where\n((?:[ \t]+.*\n|\n)*)", re.M)
FIELD = re.compile(r"^  pub ", re.M)
COMMENT = re.compile(r"--.*")
RELATION = re.compile(r"[≡≈≼≺≤<↔⊥]")


def public_functions(code):
    """Each public function of a file of code, with its signature and clauses: all that stands before its body."""
    for head in FUNCTION.finditer(code):
        rest = code[head.start():]
        body = BODY.search(rest)
        yield head.group(1), rest[:body.start() + 1] if body else rest


def is_statement(fields):
    """Whether a record states something: its first field does. A record of numbers or lists has those first, and what is asked of them after."""
    told = FIELD.split(COMMENT.sub("", fields))[1:]
    return bool(told) and RELATION.search(told[0]) is not None


def statements(definitions):
    """What a file of specs/ states as a type of its own, or as a record without parameters."""
    return STATEMENT.findall(definitions) + [name for name, fields in RECORD.findall(definitions) if is_statement(fields)]
