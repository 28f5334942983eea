#!/usr/bin/env python3
"""Respells the repository's own definitions and lemmas: words in snake case, types and facts in camel case. A word of the
library that was imported under another word of the library is cited under its own name.

usage: python3 tools/respell.py [--dry]      at the top of the repository, once, right after the kit's port.py

Names that come from a library, and names that the checker makes for goals and steps, stay. Of the code only clauses
are touched: no function, string, input or output gets another name. It prints the names that would fall together
with one that stands, and leaves those alone.
"""

import os
import re
import sys

TOKEN = re.compile(r"(?<![\w'◌·-])[^\W\d][\w']*(?:-[\w'+*≤<ℤℕ]+)*(?![\w'])")
SIGNATURE = re.compile(r"^\s*(?:abbrev |unfoldable |pub )*([^\s:(){}]+) :(?= |$)(.*)")
HEAD = re.compile(r"^\s*(?:pub )?(?:abbrev )?(?:data|record) ([^\s:(){}]+)")
IMPORT = re.compile(r"^(?:pub )?(?:ghost )?use ([\w.'·+-]+)\.\{([^}]*)\}")
# where two would fall together, or a name has a capital within
CHOSEN = {
    "Filled-line": "LineWithUnits",
    "Filled-offer": "OfferWithUnits",
    "Offer-head": "HeadOfOffer",
    "Money-then-weeks": "MoneyThenWeeks",
    "Is-head": "IsHead",
    "Is-name": "IsName",
    "sumN": "sum_n",
    "totalZ": "total_z",
    "getD-mid": "get_or_mid",
    "leZ-prop": "le_ℤ_prop",
    # lemmas that would have the name of the function whose contract states them
    "allowed-is-circulation": "allowed_is_circulation_lem",
    "arcs-are-placed": "arcs_are_placed_lem",
    "best-is-best-circulation": "best_is_best_circulation_lem",
    "circulation-is-filled": "circulation_is_filled_lem",
    "money-is-payoffs": "money_is_payoffs_lem",
    "network-is-sound": "network_is_sound_lem",
    "network-stands-for": "network_stands_for_lem",
    "is-cash": "is_cash_lem",
}


def files(suffix):
    for folder, dirs, names in os.walk("crates"):
        dirs[:] = sorted(d for d in dirs if d not in ("out", "target"))
        for name in sorted(names):
            if name.endswith(suffix):
                yield os.path.join(folder, name)


def read(path):
    with open(path, encoding="utf-8") as f:
        return f.read()


def defined(path, text, own):
    """The names that a file of specs/ or proofs/ defines: definitions, lemmas, fields, constructors and their parameters' names are not."""
    for line in text.splitlines():
        if line.lstrip().startswith("--"):
            continue
        match = HEAD.match(line)
        if match:
            own.add(match.group(1))
            continue
        match = SIGNATURE.match(line)
        if match and not re.search(r"\bgoal\.", match.group(2)):
            own.add(match.group(1))


def aliases(text, own):
    """The names that a file gives to what it imports."""
    for line in text.splitlines():
        match = IMPORT.match(line)
        if match:
            own.update(re.findall(r" as ([^,]+?)\s*(?:,|$)", match.group(2)))


def imported(text, crates, library):
    for line in text.splitlines():
        match = IMPORT.match(line)
        if not match:
            continue
        parts = match.group(1).split(".")
        if parts[0] == "Rattle" and len(parts) > 1 and parts[1] in crates:
            continue
        for item in match.group(2).split(","):
            library.add(item.split(" as ")[0].strip())


def used(text):
    """The names that stand in a file as terms: a part of a path is none."""
    for line in text.splitlines():
        line = re.sub(r"[\w'·+-]+\.(?=[\w'{])", "", line) if IMPORT.match(line) else line
        if not re.match(r"use [\w.'·+-]+ as ", line):
            yield from re.findall(r"(?<![\w'.-])[^\W\d][\w']*(?:-[\w'+*≤<ℤℕ]+)*", line)


def spelt(name):
    words = name.replace("sumN", "sum_n").split("-")
    if name[0].isupper():
        return words[0] + "".join(w[:1].upper() + w[1:] for w in words[1:])
    return "_".join(words)


def plainly(text):
    """Cites AllByRecursion under its own name, and not under that of the library's All, which goes by index."""
    if "AllByRecursion as All" not in text:
        return text
    lines = text.replace("AllByRecursion as All", "AllByRecursion").split("\n")
    for i, line in enumerate(lines):
        if not re.match(r"(ghost )?use |\s*(--|//)", line):
            lines[i] = re.sub(r"(?<![\w'.-])All(?![\w'-])", "AllByRecursion", line)
    return "\n".join(lines)


def respelt(match, line, new):
    old = match.group(0)
    if old in new and new[old].endswith("_lem") and line[match.start() - 1 : match.start()] == ".":
        return spelt(old)  # a step of the code, not the lemma
    return new.get(old, old)


def main():
    dry = "--dry" in sys.argv[1:]
    crates = set(os.listdir("crates"))
    own, library, terms = set(), set(), set()
    texts = {p: read(p) for p in list(files(".antt")) + list(files(".rt"))}
    for path, text in texts.items():
        imported(text, crates, library)
        aliases(text, own)
        if path.endswith(".antt"):
            defined(path, text, own)
            terms.update(used(text))
    names = {n for n in own if n in CHOSEN or ("-" in n and TOKEN.fullmatch(n))}
    for n in sorted(names & library):
        print(f"stays, since a library has it too: {n}")
    names -= library
    new = {}
    for n in sorted(names):
        if re.match(r"(loop-.*-(init|preserved|smaller)|returns-|invariant-loop|decreases-|in-[A-Z]|in_ok-|in_err-|if-)", n):
            print(f"stays, since it reads like a goal: {n}")
            continue
        to = CHOSEN.get(n) or spelt(n)
        if (to in terms and n not in CHOSEN) or to in new.values():
            print(f"falls together: {n} with {to}")
            continue
        new[n] = to
    print(f"{len(new)} names respelt")
    if dry:
        for n, to in new.items():
            print(n, to)
        return
    for path, text in texts.items():
        out = []
        for line in text.split("\n"):
            if path.endswith(".antt"):
                line = TOKEN.sub(lambda m: respelt(m, line, new), line)
            elif not line.lstrip().startswith("//"):
                # strings, and the comment after code, stay
                parts = re.split(r'("(?:[^"\\]|\\.)*"|//.*)', line)
                for i in range(0, len(parts), 2):
                    part = parts[i]
                    parts[i] = TOKEN.sub(lambda m: respelt(m, part, new), part)
                line = "".join(parts)
            out.append(line)
        after = plainly("\n".join(out))
        if after != text:
            with open(path, "w", encoding="utf-8") as f:
                f.write(after)


main()
