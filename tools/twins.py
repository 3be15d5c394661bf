#!/usr/bin/env python3
"""Lists pairs of functions in crates/*/src whose bodies have one shape: the same words and signs once each name, number
and text is put in the same way. A pair is a candidate for one generic function; docs/DESIGN-PASS.md says what became of
each. The answer of a trait's method, being asked for by the trait, counts too.

    tools/twins.py [LEAST]      (bodies of at least LEAST words and signs; 24 if none is given)
"""
import pathlib
import re
import sys

KEPT = {"for", "in", "if", "else", "match", "while", "let", "return", "mut", "Some", "None", "Ok", "Err", "self", "true",
        "false", "as", "break", "continue", "matches"}
WORD = re.compile(r'b?"(?:[^"\\]|\\.)*"|b?\'(?:[^\'\\]|\\.)+\'|[A-Za-z_][A-Za-z0-9_]*|\d[\d_xa-f]*|\S')


def functions(text):
    """Name and body of each function that has one."""
    text = re.sub(r"//[^\n]*", "", text)
    for found in re.finditer(r"\bfn (\w+)", text):
        at, depth = found.end(), 0
        # the body begins at the first brace that begins a line or ends one, after the clauses
        start = None
        for line in re.finditer(r"[^\n]*\n", text[at:]):
            part = line.group().rstrip()
            if part.strip() == "{" or (part.endswith("{") and "ensures" not in part and "requires" not in part):
                start = at + line.start() + len(part) - 1
                break
            if part.endswith(";") and "ensures" not in part:
                break
            if part.strip() == "}":
                break
        if start is None:
            continue
        for end in range(start, len(text)):
            if text[end] == "{":
                depth += 1
            elif text[end] == "}":
                depth -= 1
                if depth == 0:
                    yield found.group(1), text[start + 1:end]
                    break


def shape(body):
    words = WORD.findall(body)
    return [w if w in KEPT or not (w[0].isalnum() or w[0] in "_\"'") else "x" for w in words]


def main():
    least = int(sys.argv[1]) if len(sys.argv) > 1 else 24
    top = pathlib.Path(__file__).resolve().parent.parent
    groups = {}
    for path in sorted(top.glob("crates/*/src/**/*.rt")):
        for name, body in functions(path.read_text()):
            words = shape(body)
            if len(words) >= least:
                groups.setdefault(" ".join(words), []).append(f"{path.relative_to(top)}: {name}")
    alike = [group for group in groups.values() if len(group) > 1]
    for group in alike:
        print(" = ".join(group))
    print(f"{sum(len(group) for group in alike)} functions in {len(alike)} groups of one shape")


if __name__ == "__main__":
    main()
