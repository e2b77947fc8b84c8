#!/usr/bin/env python3
"""Brings the repository's own names to one spelling: definitions, lemmas and fields in snake case, types in camel case.

usage: tools/respell.py [ROOT]

It was run once, after the kit's port.py. It renames what specs/ and proofs/ declare, wherever crates/ cites it (in must-fail edits
too), and in proof files the names that the check makes of the source: those keep the source's spelling, and a dash joins their parts.
Functions of src/, strings and comments stay. It stops, with nothing written, where two names would fall together.
"""

import os
import re
import sys

WORD = r"[^\s(){}.;,@\"«»\[\]\\]+"
ANTT = re.compile(r"--[^\n]*|\"(?:[^\"\\]|\\.)*\"|" + WORD)
RUST = re.compile(r"//[^\n]*|\"(?:[^\"\\]|\\.)*\"|'(?:[^'\\]|\\.)'|" + WORD)
DECLARED = re.compile(
    r"^\s*(?:abbrev |unfoldable |private )?(?:pub )?(?:record |data |let )?(" + WORD + r")\s+(?:[({].*)?:\s(.*)$"
)
ANSWERS = ("Answers.antt", "Invariants.antt", "Proof.antt")
# What the check calls its own goals and steps.
OWN = """overflow_add overflow_sub overflow_mul overflow_shl overflow_shr overflow_cast overflow_step nonzero_div nonzero_rem
offset_bounds slice_bounds invariant_of type_inv in_default in_ok in_err yielded_by""".split()
# A lemma beside a type of the same name, and the like: none here.
GENERATED = re.compile(r"^(goal|need)\.")


def files(root, *endings):
    for folder, dirs, names in os.walk(os.path.join(root, "crates")):
        dirs[:] = sorted(d for d in dirs if d != "out")
        for name in sorted(names):
            if name.endswith(endings):
                yield os.path.join(folder, name)


def read(path):
    with open(path, encoding="utf-8", newline="") as it:
        return it.read()


def declared(root):
    """Each name that specs/ and proofs/ declare, and whether it is a type somewhere."""
    found = {}
    for path in files(root, ".antt"):
        for line in read(path).split("\n"):
            m = DECLARED.match(line)
            if not m or line.lstrip().startswith("--") or GENERATED.match(m.group(2)):
                continue
            if re.match(r"\s*let ", line):
                continue
            name, rest = m.group(1), line
            kind = bool(re.search(r"Type 0( where)?\s*$", rest)) or bool(re.match(r"\s*(abbrev |unfoldable )?(pub )?(record|data) ", rest))
            found[name] = found.get(name, False) or (kind and name[0].isupper())
    return found


def aliases(root):
    """The names that an import gives, as in `operation as operation-of`."""
    return {n: False for path in files(root, ".antt", ".rt") for n in re.findall(r"\bas ([a-z][\w']*(?:-[\w']+)+)", read(path))}


def new_name(name, is_type):
    if is_type:
        return "".join(part[:1].upper() + part[1:] for part in name.split("-"))
    return name.replace("-", "_")


def identifiers(root):
    """The names of src/ of several parts, by their dashed form."""
    out = {}
    for path in files(root, ".rt"):
        for name in re.findall(r"[A-Za-z0-9]*_\w*", re.sub(r"//[^\n]*|\"(?:[^\"\\]|\\.)*\"", "", read(path))):
            if not name.startswith("_") and not name.endswith("_"):
                out[name.replace("_", "-")] = name
    for name in OWN:
        out[name.replace("_", "-")] = name
        out[(name[0].upper() + name[1:]).replace("_", "-")] = name[0].upper() + name[1:]
    return out


def made_name(token, names):
    """A name that the check makes: its parts that stand in the source keep their spelling there."""
    if "+" in token:
        return "+".join(made_name(it, names) for it in token.split("+"))
    parts, out, i = token.split("-"), [], 0
    while i < len(parts):
        for j in range(len(parts), i, -1):
            if "-".join(parts[i:j]) in names:
                out.append(names["-".join(parts[i:j])])
                i = j
                break
        else:
            out.append(parts[i])
            i += 1
    return "-".join(out)


def main(root):
    found = aliases(root) | declared(root)
    renamed = {n: new_name(n, t) for n, t in found.items() if "-" in n}
    targets = {}
    for n, m in renamed.items():
        targets.setdefault(m, []).append(n)
    bad = [f"{', '.join(ns)} would all be {m}" for m, ns in sorted(targets.items()) if len(ns) > 1]
    bad += [f"{n} would be {m}, which is declared" for n, m in sorted(renamed.items()) if m in found]
    if bad:
        print("\n".join(bad))
        return 1
    names = identifiers(root)
    count = 0
    for path in files(root, ".antt", ".rt", ".edit"):
        text = read(path)
        own_files = path.endswith(ANSWERS)
        in_proofs = "/proofs/" in path
        imported = set()
        for names_in in re.findall(r"(?m)^use \S+\.(?:Goals|Given)(?:\.\S+?)?\.\{([^}]*)\}", text) if own_files else []:
            imported |= set(re.findall(WORD, names_in))

        def turn(m):
            token = m.group(0)
            if token.startswith(("--", "//", '"')) or "-" not in token:
                return token
            if token in renamed:
                return renamed[token]
            if in_proofs and token in names:
                return names[token]
            if in_proofs and path.endswith(".antt") and token not in found:
                # a name that the check makes stands behind a dot, or is a goal that this file answers
                before = text[max(0, m.start() - 1):m.start()]
                if before == "." or token in imported or own_files and re.search(r"(?m)^(abbrev )?(pub )?" + re.escape(token) + r"\s+:\s+(goal|need)\.", text):
                    return made_name(token, names)
            return token

        new = (RUST if path.endswith((".rt", ".edit")) else ANTT).sub(turn, text)
        if own_files:
            # the equations of a goal that was renamed
            for goal in re.findall(r"(?m)^(?:abbrev )?(?:pub )?(\S+)\s+:\s+(?:goal|need)\.", text):
                made = made_name(goal, names)
                if made != goal:
                    new = re.sub(r"(?m)^" + re.escape(goal) + r"(?=[\s])", lambda _: made, new)
        if new != text:
            count += 1
            with open(path, "w", encoding="utf-8", newline="") as it:
                it.write(new)
    print(f"{len(renamed)} names, {count} files")
    return 0


if __name__ == "__main__":
    raise SystemExit(main(sys.argv[1] if len(sys.argv) > 1 else "."))
