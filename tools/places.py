#!/usr/bin/env python3
"""Lists the places that docs/DESIGN-PASS.md counts, in the sources of a checkout: tools/places.py [POINT ..] [--at FOLDER]."""
import collections
import pathlib
import re
import sys

args = sys.argv[1:]
root = pathlib.Path(__file__).resolve().parent.parent
if "--at" in args:
    i = args.index("--at")
    root = pathlib.Path(args[i + 1])
    del args[i : i + 2]
wanted = args or ["1", "2", "3", "4", "5", "6", "7"]

sources = {p: p.read_text().split("\n") for p in sorted(root.glob("crates/*/src/*.rt"))}


def lines(pattern):
    """The lines of all sources that a pattern fits, with their places."""
    rx = re.compile(pattern)
    for path, text in sources.items():
        for number, line in enumerate(text, 1):
            if rx.search(line) and not line.lstrip().startswith("//"):
                yield f"{path.relative_to(root)}:{number}", line.strip()


def functions():
    """Each function with its place, its parameters and its body."""
    for path, text in sources.items():
        for number, line in enumerate(text, 1):
            m = re.match(r"( *)(?:pub )?(?:const )?fn (\w+)", line)
            if not m:
                continue
            indent = m.group(1)
            head, body, where = [], [], "head"
            for later in text[number - 1 :]:
                if where == "head":
                    head.append(later)
                    if later == indent + "{" or later.endswith(" {"):
                        where = "body"
                elif later == indent + "}":
                    break
                else:
                    body.append(later.strip())
            yield f"{path.relative_to(root)}:{number}", m.group(2), " ".join(head), body


def twins():
    """Functions whose text is one but for names of types, of other functions, of fields and constants, and numbers."""
    kinds = collections.defaultdict(list)
    for place, name, head, body in functions():
        text = " ".join(l for l in body if not l.startswith("//"))
        if len(text) < 12:
            continue
        shape = re.sub(r"\b[a-z_0-9]+(?=::|\()|(?<=\.)\w+|\b[A-Z]\w*\b|\b(?:u8|u32|u64|usize|f64|i8)\b|\b\d[\w.]*\b|b'.'", "_", text)
        names = {}
        shape = re.sub(r"\b[a-z]\w*\b", lambda m: names.setdefault(m.group(), f"v{len(names)}"), shape)
        kinds[shape].append(f"{place} {name}")
    for places in kinds.values():
        if len(places) > 1:
            for p in places:
                yield p, f"one of {len(places)}"


def travelling():
    """Runs of three parameters and more that stand in five functions and more, by the functions that have them."""
    heads = []
    for place, name, head, body in functions():
        inner = head[head.index("(") + 1 :]
        inner = re.split(r"\)(?: ->| *(?:requires|ensures|\{|$))", inner)[0]
        params = [p.split(":")[0].strip() for p in inner.split(",") if ":" in p]
        heads.append((f"{place} {name}", params))
    count = collections.Counter()
    for _, params in heads:
        seen = {tuple(params[i : i + 3]) for i in range(len(params) - 2)}
        count.update(seen)
    often = {run for run, n in count.items() if n >= 5}
    for place, params in heads:
        runs = [r for r in (tuple(params[i : i + 3]) for i in range(len(params) - 2)) if r in often]
        if runs:
            yield place, f"{len(params)} parameters, among them " + ", ".join(runs[0])


def facts():
    """Facts that the `requires` of three functions and more have, by the places of the clauses."""
    found = collections.defaultdict(list)
    for place, line in lines(r"^\s*requires\b"):
        m = re.search(r"\{ (.*) \}$", line)
        if m:
            for fact in re.split(r" × ", m.group(1)):
                found[fact.strip("() ")].append(place)
    for fact, places in found.items():
        if len(places) >= 3:
            for p in places:
                yield p, fact


POINTS = {
    "1": ("enums, answers with a number or a flag beside values, numbers for kinds and refusals", lambda: [
        *lines(r"^\s*(pub )?enum "),
        *lines(r"^\s*(pub )?(status: Status|number: u64|ended: bool|amid: bool|finished: bool|found: u64|kind: u64|pick: usize),$"),
        *lines(r"(?<!\.)\b(next|next_length|limit)\((?!&mut self)|\.number != 0|is_accepted\("),
        *lines(r"\b(channel|c): usize\b|\bc == [012]\b"),
    ]),
    "2": ("functions that are one text but for types, names and numbers", lambda: list(twins())),
    "3": ("loops that count by hand, and loops over the places of a slice", lambda: [
        *lines(r"^\s*while "),
        *lines(r"^\s*(?:'\w+: )?for \w+ in .*\.\.\w+\.len\(\)"),
    ]),
    "4": ("comparisons, conversions and printing by hand", lambda: [
        *lines(r"fn (is_\w+|larger|smaller|saturating_sub|div_ceil|to_\w+|of_\w+|state_byte|tile_state|move_of|told|wide|negated|less|zero|print_\w+)\b"),
    ]),
    "5": ("parameters that travel together; facts in three contracts and more", lambda: [*travelling(), *facts()]),
    "6": ("buffers with a length beside, parallel arrays", lambda: [
        *lines(r"\b\w+_len: usize\b|\bcount: usize\b|\[[A-Za-z]\w*; 8\]"),
    ]),
    "7": ("switches on a step, tables of functions", lambda: [
        *lines(r"\bmatch (?:\w+\.)?((kind|letter)\(|channels|phase)|: (?:&?dyn |fn\()"),
    ]),
}

for point in wanted:
    title, places = POINTS[point]
    found = places()
    print(f"point {point}: {len(found)} places: {title}")
    for place, text in found:
        print(f"    {place}: {text[:120]}")
