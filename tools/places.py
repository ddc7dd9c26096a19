#!/usr/bin/env python3
"""Counts what docs/DESIGN-PASS.md speaks of: places.py [-l] [TOP], with -l each place as well. TOP is a checkout, by default this one."""
import collections
import glob
import os
import re
import sys

LIST = "-l" in sys.argv
REST = [a for a in sys.argv[1:] if a != "-l"]
TOP = REST[0] if REST else os.path.join(os.path.dirname(os.path.abspath(__file__)), "..")


def sources():
    for path in sorted(glob.glob(f"{TOP}/crates/*/src/**/*.rt", recursive=True)):
        text = open(path).read()
        yield os.path.relpath(path, f"{TOP}/crates"), re.sub(r"//[^\n]*", "", text)


def functions(text):
    """(name, parameters, contract, body) of each function with a body."""
    for m in re.finditer(r"\bfn (\w+)(?:<[^(]*>)?\(", text):
        i, depth = m.end(), 1
        while depth:
            depth += {"(": 1, ")": -1}.get(text[i], 0)
            i += 1
        parameters = text[m.end(): i - 1]
        j = text.find("\n{\n", i)
        inline = re.match(r"[^{;\n]*\{\n", text[i:])
        if inline:
            start = i + inline.end() - 2
        elif j < 0 or re.search(r"\n(?:pub |fn |impl |\}\n)", text[i:j]):
            k = text.find("{\n", i)
            if k < 0:
                continue
            start = k
        else:
            start = j + 1
        contract = text[i:start]
        depth, k = 0, start
        while k < len(text):
            depth += {"{": 1, "}": -1}.get(text[k], 0)
            k += 1
            if not depth:
                break
        yield m.group(1), parameters, contract, text[start:k]


def split(parameters):
    out, depth, part = [], 0, ""
    for c in parameters:
        depth += {"(": 1, "[": 1, "<": 1, ")": -1, "]": -1, ">": -1}.get(c, 0)
        if c == "," and not depth:
            out.append(part.strip())
            part = ""
        else:
            part += c
    return [p for p in out + [part.strip()] if p and not p.endswith("self")]


found = collections.OrderedDict()


def place(point, where):
    found.setdefault(point, []).append(where)


NAMES = [
    "1 own enums of the shape of Option or Result",
    "1 an answer of the checks kept as a field beside values",
    "1 numbers for kinds: arms on numerals, and constants that name a code",
    "2 functions alike but for names, types and numbers (groups)",
    "3 while loops",
    "4 functions that only do what std does (least, greatest, widen, 1 for true)",
    "5 a fact in the contracts of three functions or more",
    "5 functions of more than ten parameters",
    "6 a count beside the slice that it counts",
    "7 functions that only choose among calls by a number",
]
for name in NAMES:
    found[name] = []
P = dict(zip("a b c d e f g h i j".split(), NAMES))

bodies, facts = collections.defaultdict(list), collections.defaultdict(set)
for path, text in sources():
    for m in re.finditer(r"\benum (\w+)[^{]*\{(.*?)\n\}", text, re.S):
        variants = re.findall(r"^    (\w+)(\(|\s*\{|,)", m.group(2), re.M)
        full = sum(v[1] != "," for v in variants)
        if len(variants) == 2 and full >= 1:
            place(P["a"], f"{path} {m.group(1)}")
    for m in re.finditer(r"^    pub checked: ", text, re.M):
        place(P["b"], path)
    conversions = re.sub(r"fn (?:try_)?from\(.*?\n    \}\n", "", text, flags=re.S)  # there a number becomes an enum
    for m in re.finditer(r"^\s*\d+(?:\s*\|\s*\d+|\.\.=\d+)* => ", conversions, re.M):
        place(P["c"], f"{path}: {m.group(0).strip()}")
    for m in re.finditer(r"const ([A-Z_]+): u(?:8|64) = (\d+);", text):
        if int(m.group(2)) < 20 and not re.search(r"BITS|DIGIT|LIMIT|ROW|WIDTH", m.group(1)):
            place(P["c"], f"{path} {m.group(1)}")
    for m in re.finditer(r"^\s*while ", text, re.M):
        place(P["e"], f"{path}:{text[:m.start() + 1].count(chr(10)) + 1}")
    for name, parameters, contract, body in functions(text):
        where = f"{path} {name}"
        params = split(parameters)
        inner = body.strip()[1:-1].strip()
        words = re.sub(r"\s+", " ", inner)
        alike = re.sub(r"\b[a-z_]\w*\b(?=\()", "F", re.sub(r'b?"[^"]*"|b?\'[^\']*\'', "S", words))
        alike = re.sub(r"\b\d+\w*\b|\b[A-Z_]{2,}\b|Block::\w+|Section::\w+", "0", alike)
        names = {}
        alike = re.sub(r"\b[a-z_]\w*\b", lambda m: names.setdefault(m.group(0), f"v{len(names)}") if m.group(0) not in
                       ("if", "else", "match", "let", "mut", "for", "in", "while", "return", "as", "len", "true", "false") else m.group(0), alike)
        if inner.count("\n") >= 2:
            bodies[alike].append(where)
        if re.fullmatch(r"if (\w+) <=? (\w+) \{ \w+ \} else \{ \w+ \}|\w+ as u64|if \w+ \{ 1 \} else \{ 0 \}|if \w+ \{ 0 \} else \{ 1 \}|0 - \(?\w+ as i64\)?|\w+ as usize|\w+\[\w+\] as u64|\w+\[\w+\] (?:<|==) \w+\[\w+\]", words):
            place(P["f"], where)
        if len(params) > 10:
            place(P["h"], f"{where} ({len(params)})")
        slices = [p for p in params if re.search(r": &(?:mut )?\[", p)]
        for p in params:
            if re.match(r"(?:n|count|size): usize$", p) and slices:
                place(P["i"], f"{where} {p}")
        if name not in ("from", "try_from") and re.fullmatch(r"match \w+ \{(?: (?:\d+|_) => \w+\([^{}]*\),?)+ \}", words) or name not in ("from", "try_from") and len(re.findall(r"if \w+ == \d \{ return \w+\(", words)) > 1:
            place(P["j"], where)
        for clause in re.findall(r"requires[^{]*\{ ?(.*?) ?\}\n", contract, re.S):
            flat = re.sub(r"\s+", " ", clause)
            parts, depth, part = [], 0, ""
            for token in re.split(r"( × )", flat):
                if token == " × " and not depth:
                    parts.append(part)
                    part = ""
                else:
                    part += token
                    depth += token.count("(") - token.count(")")
            for part in parts + [part]:
                part = part.strip()
                while part.startswith("(") and part.endswith(")") and part.count("(") == part.count(")"):
                    part = part[1:-1].strip()
                part = re.sub(r"\.(?:now|old)\b", "", part)
                if part:
                    facts[(path.split("/")[0], part)].add(name)
for alike, where in bodies.items():
    if len(where) > 1:
        place(P["d"], "; ".join(where))
for (crate, part), where in facts.items():
    if len(where) >= 3:
        place(P["g"], f"{crate}: {part[:90]} ({len(where)})")

for name, where in found.items():
    print(f"{len(where):5d}  {name}")
    if LIST:
        for w in where:
            print(f"           {w}")

answers = sorted(glob.glob(f"{TOP}/crates/*/proofs/**/*.antt", recursive=True))
lines = sum(open(p).read().count("\n") for p in answers)
goals = sum(len(re.findall(r"^pub \S+ :\s+goal\.", open(p).read(), re.M)) for p in answers)
print(f"{goals:5d}  8 goals answered by hand, in {sum('Answers' in p for p in answers)} files")
print(f"{lines:5d}  8 lines of proofs")
src = glob.glob(f"{TOP}/crates/*/src/**/*.rt", recursive=True)
print(f"{sum(open(p).read().count(chr(10)) for p in src):5d}  lines of code, {sum(len(list(functions(t))) for _, t in sources())} functions")
