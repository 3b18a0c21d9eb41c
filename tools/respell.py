#!/usr/bin/env python3
"""Respells this repository's own definitions and lemmas as today's Rattle spells names: words in snake case.

usage: python3 tools/respell.py    at the top of the repository, once, after port.py of the kit

It goes by text, over specs/, proofs/, src/ and the names in backticks of README and docs/. Names that specs/ and proofs/*.antt declare are
turned; names of functions, of types and modules, of C, strings and what programs read and write are not. A dash stays where it joins the names
of two definitions, as in `cell-crop`, and is `_` elsewhere. It stops, and writes nothing, where two names would fall together.
"""
import collections
import glob
import os
import re

# what a rule by letters would spell badly, or what would fall together with a word of std's or with another name
BY_HAND = {
    "kernel2D": "kernel_2d",
    "cpp-length": "cpp_len",
    "in-phase": "in_phase_lem",
    "is-back": "is_back_lem",
}
# names that had today's spelling before a definition got the same
IN_FILE = {
    "crates/converged/proofs/Places.antt": {"no_move": "no_move_lem"},
    "crates/converged/proofs/Theorem.antt": {"pass_of": "pass_of_lem"},
}
IDENT = r"[^\s(){}\[\],;.`'\"λ◌:@⟨⟩|]+'*"
DECLARED = re.compile(r"^[ \t]*(?:unfoldable |abbrev )?(?:pub )?(?:unfoldable |abbrev )?(" + IDENT + r")(?: [({][^)}]*[)}])* : ", re.M)
HEAD = re.compile(r"^[ \t]*(?:pub )?(?:data|record) ", re.M)
TOKEN = re.compile(IDENT)


def snake(name):
    return re.sub(r"(?<=[a-z0-9])([A-Z])", lambda m: "_" + m.group(1).lower(), name)


def fields(text):
    """The names declared inside records and data types."""
    found = set()
    for m in HEAD.finditer(text):
        for line in text[m.end():].split("\n")[1:]:
            if not line.strip():
                continue
            if not line.startswith("  "):
                break
            d = DECLARED.match(line + " ") or re.match(r"[ \t]*(?:pub )?(" + IDENT + r") : ", line)
            if d:
                found.add(d.group(1))
    return found


def main():
    root = os.getcwd()
    antt = sorted(glob.glob("crates/*/specs/*.antt") + glob.glob("crates/*/proofs/**/*.antt", recursive=True))
    antt = [p for p in antt if "/out/" not in p]
    laws = [p for p in antt if p.split("/")[2] == "specs" or len(p.split("/")) == 4]
    text = {p: open(p, encoding="utf-8").read() for p in antt}
    for p, names in IN_FILE.items():
        text[p] = TOKEN.sub(lambda m: names.get(m.group(0), m.group(0)), text[p])
    words, labels, lemmas = set(), set(), set()
    for p in laws:
        labels |= fields(text[p])
        names = set(DECLARED.findall(text[p]))
        if p.split("/")[2] == "specs":
            words |= names
        else:
            lemmas |= names
    words -= labels
    lemmas -= labels | words
    # what a dash may join: definitions of this repository, and what its files import from std
    std = set()
    for p in antt:
        for m in re.finditer(r"^use Rattle\.std\.[^{]*\{([^}]*)\}", text[p], re.M):
            std |= {w.strip().split(" ")[-1] for w in m.group(1).split(",")}
    joined = {w for w in words | std if re.match(r"[a-z]", w) and "-" not in w}
    joined |= {snake(w) for w in joined}

    def undashed(name, label):
        if name in BY_HAND:
            return BY_HAND[name]
        parts = snake(name).split("-")
        if len(parts) == 1:
            return parts[0]
        out = parts[0]
        for i in range(1, len(parts)):
            before = any("_".join(parts[k:i]) in joined for k in range(i))
            after = any("_".join(parts[i:k]) in joined for k in range(i + 1, len(parts) + 1))
            out += ("-" if before and after and not label and all(parts) else "_") + parts[i]
        return out

    turn = {}
    for name in labels:
        if re.match(r"[a-z]", name):
            turn[name] = undashed(name, True)
    for name in words | lemmas:
        if re.match(r"[a-z]", name):
            turn[name] = undashed(name, False)
    # 'A lemma that would have its function's name gets `_lem`'
    defined = {snake(w) for w in words} | labels
    for name in lemmas:
        if name in turn and turn[name] in defined:
            turn[name] += "_lem"
    turn = {a: b for a, b in turn.items() if a != b}
    # names that fall together: a new name that stands already, or that two old names get
    uses = collections.defaultdict(set)
    for p in antt:
        for t in set(TOKEN.findall(re.sub(r"--( .*)?$", "", text[p], flags=re.M))):
            uses[t].add(p)
    bad = []
    for a, b in sorted(turn.items()):
        for p in sorted(uses[a] & uses[b]):
            if p in laws:
                bad.append(f"{p}: {a} is to be {b}, which stands there")
    made = collections.defaultdict(list)
    for a, b in turn.items():
        made[b].append(a)
    for b, many in sorted(made.items()):
        if len(many) > 1:
            both = set.intersection(*(uses[a] for a in many))
            if both:
                bad.append(f"{b}: from {', '.join(sorted(many))}; together in {', '.join(sorted(both))}")
    if bad:
        print("\n".join(bad))
        print(f"respell: {len(bad)} names fall together; nothing was written")
        return 1

    def turned(t):
        return TOKEN.sub(lambda m: turn.get(m.group(0), m.group(0)), t)

    changed = 0
    for p in antt:
        new = turned(text[p])
        changed += new != open(p, encoding="utf-8").read()
        open(p, "w", encoding="utf-8").write(new)
    strings = re.compile(r'(b?"(?:[^"\\]|\\.)*"|b?\'(?:[^\'\\]|\\.)\')')
    for p in sorted(glob.glob("crates/*/src/**/*.rt", recursive=True)):
        old = open(p, encoding="utf-8").read()
        new = "".join(s if i % 2 else turned(s) for i, s in enumerate(strings.split(old)))
        changed += new != old
        open(p, "w", encoding="utf-8").write(new)
    ticked = re.compile(r"`[^`\n]+`")
    for p in ["README.md", "crates.txt"] + sorted(glob.glob("docs/*.md")):
        old = open(p, encoding="utf-8").read()
        new = ticked.sub(lambda m: turned(m.group(0)), old)
        changed += new != old
        open(p, "w", encoding="utf-8").write(new)
    print(f"respell: {len(turn)} names, {changed} files of {root}")
    return 0


if __name__ == "__main__":
    raise SystemExit(main())
