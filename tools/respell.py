#!/usr/bin/env python3
"""Brings the names of this repository's own definitions and lemmas to Rattle's spelling: snake case for words, an apostrophe for a prime.

usage: tools/respell.py [TOP]      at the top of the repository, once, right after port.py; --list prints old and new names and writes nothing

Types and facts keep their capitals, names of the Rust sources and of Rattle's goals are left alone. `getD` in a name is `get_or`, as in the library.
A dash stays beside a capital or a symbol; elsewhere it becomes `_`. In pages it turns what stands between backticks: see that no file's name went along.
A tree that is respelled already is left as it is.
"""
import glob
import os
import re
import sys

ONLY_LIST = "--list" in sys.argv
args = [a for a in sys.argv[1:] if not a.startswith("--")]
TOP = args[0] if args else "."

# Where the rule alone would give a name that is taken.
SPECIAL = {
    "onFrontier": "is_on_frontier",
    "hasDrive": "holds_drive",
    "regionAt": "region_of_place",
    "sourcePort": "source_port_of",
    "sinkPort": "sink_port_of",
    "keysBelow": "keys_up_to",
    "sameRow": "is_same_row",
    "setWords": "words_of_set",
    "tooLong": "too_long_sheet",
}

DEF = re.compile(r"^\s*(?:(?:pub|abbrev|unfoldable) )*([^\s:(){}=,.]+)( [^:]*)? : ")
KIND = re.compile(r"^\s*(?:(?:pub|abbrev|unfoldable) )*(?:record|data) ")
TOKEN = re.compile(r"[^\s(){}\[\],;.λ\"`|:@&!=<>/]+")
OWN = re.compile(r"use Rattle\.([a-z_0-9]+)\.")


def read(path):
    with open(path, encoding="utf-8") as f:
        return f.read()


def snake(part):
    if not part or not part[0].islower():
        return part
    s = re.sub(r"([a-z0-9])([A-Z])", r"\1_\2", part)
    return s.lower().replace("get_d", "get_or")


def respell(name):
    if name in SPECIAL:
        return SPECIAL[name]
    hole = name.startswith("◌") or name.endswith("◌")
    core = name.strip("◌").replace("′", "'")
    parts = [snake(p) for p in core.split("-")]
    out = parts[0]
    for a, b in zip(parts, parts[1:]):
        plain = re.match(r"^[a-z]", a) and re.match(r"^[a-z0-9]", b)
        out += ("_" if plain else "-") + b
    if hole:
        return ("◌" if name.startswith("◌") else "") + out + ("◌" if name.endswith("◌") else "")
    return out


def antt_files():
    for top, dirs, files in os.walk(os.path.join(TOP, "crates")):
        dirs[:] = sorted(d for d in dirs if d != "out")
        for f in sorted(files):
            if f.endswith(".antt"):
                yield os.path.join(top, f)


def crates():
    return set(os.listdir(os.path.join(TOP, "crates")))


def defined(text, walk):
    """Names that the file defines; in a proof that walks the code, not the answers to Rattle's goals."""
    found = set()
    for line in text.split("\n"):
        if line.lstrip().startswith("--") or KIND.match(line) or re.match(r"^\s*(use|let|in|module|where)\b", line):
            continue
        m = DEF.match(line)
        if not m:
            continue
        if walk and (re.search(r" : tie\.", line) or " statement " in line + " "):
            continue
        found.add(m.group(1))
    return found


def kit_names(text, own):
    found = set()
    for m in re.finditer(r"use ([^\s{}]+)\.\{([^}]*)\}", text):
        o = re.match(r"Rattle\.([a-z_0-9]+)\.", m.group(1))
        if o and o.group(1) in own:
            continue
        for n in m.group(2).split(","):
            found.add(n.strip().split(" as ")[-1])
    return found


def main():
    own = crates()
    texts = {p: read(p) for p in antt_files()}
    names = set()
    local = {}
    for p, t in texts.items():
        walk = os.path.basename(p) in ("Proof.antt",)
        d = defined(t, walk)
        if walk:
            local[p] = d
        else:
            names |= d
    table = {}
    if not any(re.match(r"[a-z]\w*[A-Z]", n) for n in names):
        print("no name of the old spelling is left: nothing to do")
        return
    words = {respell(n) for n in names if "-" not in n}
    for n in names:
        if "◌" in n.strip("◌"):
            continue
        new = respell(n)
        # a lemma that would have the name of what it is about
        if "-" in n and new in words:
            new += "_lem"
        if new != n:
            table[n.strip("◌")] = new.strip("◌")
    back = {}
    for old, new in table.items():
        back.setdefault(new, set()).add(old)
    for new, olds in sorted(back.items()):
        if len(olds) > 1 or new in names:
            print("fall together:", new, sorted(olds), "taken" if new in names else "")
    others = []
    for pattern in ("crates/*/src/*.rt", "crates/*/src/**/*.rt", "crates/*/must-fail/*.edit", "*.md", "docs/*.md", "crates/*/README.md"):
        for p in glob.glob(os.path.join(TOP, pattern), recursive=True):
            if p not in others:
                others.append(p)
    changed = 0
    for p in list(texts) + others:
        t = texts.get(p) or read(p)
        here = dict(table)
        if p in local:
            for n in local[p]:
                new = respell(n)
                if new != n:
                    here[n] = new
        kit = kit_names(t, own)
        tokens = set(TOKEN.findall(t))
        hits = {o: n for o, n in here.items() if o in tokens or "◌" + o in tokens or o + "◌" in tokens or "◌" + o + "◌" in tokens}
        for o in list(hits):
            if o in kit:
                print("left, of the kit:", p, o)
                del hits[o]
            elif hits[o] in tokens and not p.endswith(".md"):
                print("taken:", p, o, "->", hits[o])

        def one(m):
            w = m.group(0)
            core = w.strip("◌")
            if core in hits:
                return w.replace(core, hits[core])
            return w.replace("′", "'") if "′" in w else w

        if p.endswith(".md"):
            new = re.sub(r"`[^`\n]+`", lambda q: TOKEN.sub(one, q.group(0)), t)
        else:
            new = TOKEN.sub(one, t)
        if new != t:
            changed += 1
            if not ONLY_LIST:
                with open(p, "w", encoding="utf-8") as f:
                    f.write(new)
    if ONLY_LIST:
        for o, n in sorted(table.items()):
            print(o, n)
    print("respelled", len(table), "names in", changed, "files")


main()
