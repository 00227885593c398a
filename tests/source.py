"""The functions of a source file: their clauses, and where they stand. The text is as `rt fmt` lays it out."""
import re
from typing import NamedTuple

HEAD = re.compile(r'^( *)(?:pub(?:\([^)]*\))? )?(?:const |unsafe )*(extern "C" )?fn (\w+)', re.M)
CLAUSE = re.compile(r"\b(?:requires|ensures)(?: \*)?(?: \w+)? $")


class Function(NamedTuple):
    name: str
    exported: bool
    start: int  # of its head's line
    body: int  # behind the brace that opens its body
    end: int
    clauses: list

    def lines(self, text):
        """Its first and its last line."""
        return text.count("\n", 0, self.start) + 1, text.count("\n", 0, self.end) + 1


def closed(text, brace):
    """Where the brace is closed that is opened here."""
    depth = 0
    for found in re.compile(r"[{}]").finditer(text, brace):
        depth += 1 if found[0] == "{" else -1
        if not depth:
            return found.start()
    raise ValueError(f"a brace is not closed: {text[brace:brace + 60]}")


def functions(text):
    """All functions of a text, those within others too. A head that has no body is none."""
    found = []
    for head in HEAD.finditer(text):
        at, clauses = head.end(), []
        while True:
            brace = text.find("{", at)
            if brace < 0 or ";" in re.sub(r"\[[^\]]*\]", "", text[at:brace].replace("\n", " ")):
                break
            if not CLAUSE.search(text[at:brace]):
                end = re.compile(f"^{head[1]}}}$", re.M).search(text, brace)
                found.append(Function(head[3], bool(head[2]), head.start(), brace + 1, end.end() if end else len(text), clauses))
                break
            at = closed(text, brace) + 1
            clauses.append(text[brace + 1 : at - 1])
    return found


def function_at(text, place):
    """The function in whose body a place stands, or None."""
    inside = [f for f in functions(text) if f.body <= place < f.end]
    return inside[-1] if inside else None
