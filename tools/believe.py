#!/usr/bin/env python3
"""What a reader has to believe: each entry's contract, the statements of the theorems, and every definition that these reach.

    tools/believe.py                     all of them, entry by entry, then each definition once with its words
    tools/believe.py is_driven           of one entry or statement
    tools/believe.py --count [crates|files|definitions]
                                         lines of definitions; comments, imports and blank lines are left out
    tools/believe.py --net [RENAMES]     one line to a contract and to a definition, without comments and places: two versions of the house
                                         that print the same promise the same. RENAMES is a file with lines `old new`

From each `ensures` and each statement every name is followed through the files of specs/ and the types of src/.
"""
import collections
import glob
import re
import sys

ENTRIES = {
    "circuit/lib": ["from_parts", "fragment_nets"],
    "scene/connections": ["port_connections"],
    "scene/reasons": ["reasons"],
    "faces/ports": ["ports_for", "port_count"],
    "faces/step": ["step_between"],
    "faces/select": ["select_port", "transfer_of"],
    "liveness/lib": ["analyze_signal_liveness"],
    "inputs/lib": ["required_input"],
    "driven/lib": ["is_driven"],
    "trail/lib": ["find_trail", "check_trail"],
    "clearing/lib": ["clear_missing"],
    "lighting/lib": ["light_regions"],
    "rings/lib": ["find_rings"],
    "reach_table/lib": ["slow_regions"],
    "records/lib": ["analyze_records"],
    "sheet/lib": ["read_sheet"],
    "convert/lib": ["convert_sheet"],
    "join/lib": ["join_sheets"],
    "held/clicks": ["open_plot", "place_block", "break_block", "connect_ports"],
    "held_liveness/lib": ["held_liveness"],
    "report/lib": ["report"],
    "plotreport/program": ["answer"],
    "capi/lib": ["dustroute_groups", "dustroute_liveness"],
    "capi/one_input": ["dustroute_driven"],
    "capi/the_way": ["dustroute_trail", "dustroute_check_trail"],
    "capi/clear": ["dustroute_clear"],
    "capi/kept": ["dustroute_ports"],
    "capi/light": ["dustroute_light"],
    "capi/ring_set": ["dustroute_rings"],
    "capi/region_table": ["dustroute_reach_table"],
    "capi/left_out": ["dustroute_reasons"],
    "capi/block": ["dustroute_block_ports"],
    "capi/input": ["dustroute_input"],
    "capi/texts": ["dustroute_sheet", "dustroute_report", "dustroute_convert"],
    "capi/joined": ["dustroute_join"],
    "capi/held_plot": ["dustroute_open", "dustroute_place", "dustroute_break", "dustroute_connect", "dustroute_held_liveness"],
}
STATEMENTS = [
    ("lists", "Places", "PlacesLaws"),
    ("regions", "Theorems", "RegionLaws"),
    ("liveness", "Demand", "RegionsOfScene"),
    ("inputs", "Same", "SameConnections"),
    ("inputs", "Same", "SameAnswer"),
    ("circuit", "Connected", "Joined"),
    ("driven", "Status", "DrivenLaws"),
    ("driven", "Status", "AnswerLaws"),
    ("trail", "Theorems", "TrailLaws"),
    ("trail", "Theorems", "TrailExists"),
    ("trail", "Theorems", "FindingLaws"),
    ("trail", "Theorems", "CheckingLaws"),
    ("clearing", "Promises", "Partition"),
    ("lighting", "Laws", "LightLaws"),
    ("rings", "Rings", "RingLaws"),
    ("rings", "Scene", "RingSceneLaws"),
    ("reach_table", "Theorems", "TableLaws"),
    ("reach_table", "Scene", "SceneLaws"),
    ("one_wire", "Grouping", "OneGroupingConnection"),
    ("one_wire", "Ports", "OnePortConnection"),
    ("one_wire", "Ports", "RepeatedPortConnection"),
    ("forms", "Writing", "sheet_text"),
    ("report", "Same", "SameReport"),
    ("report", "Rules", "LampsAlone"),
    ("convert", "Laws", "Converts"),
    ("join", "Laws", "Joins"),
    ("held", "Laws", "Decides"),
    ("held", "Laws", "Eighteen"),
    ("held", "Laws", "Unchanged"),
    ("held", "Laws", "Counted"),
    ("held", "Laws", "Fifteen"),
    ("held", "Laws", "Recent"),
    ("held", "Laws", "Seated"),
    ("held", "Lent", "LentDecides"),
    ("held", "Lent", "LentKept"),
    ("held", "Lent", "LentReaches"),
    ("held", "Scene", "SceneAccepted"),
    ("held", "Scene", "Fresh"),
    ("held_liveness", "Entry", "HeldIsFresh"),
    ("plotreport", "Fits", "ShortFits"),
    ("assessment", "RulesLaws", "RulesAgree"),
    ("assessment", "RulesLaws", "SameButInferred"),
    ("assessment", "RulesLaws", "UnreadRows"),
    ("faces", "Unread", "UnreadPorts"),
    ("scene", "Unread", "UnreadDropped"),
]
HEAD = re.compile(r"^(?:abbrev |unfoldable |pub |record |data )*([^\s:]+)")
WORD = re.compile(r"[^\s(){}\[\],;.]+")
USE = re.compile(r"use Rattle\.([a-z_]+)\.specs\.((?:declared\.)?[A-Z]\w*)([^\n;]*)")
TYPE = re.compile(r"^((?://[^\n]*\n|#\[[^\n]*\n)*)pub (?:struct|enum) (\w+)[^\n]*(?:;|\{[^\n]*\}|\{\n.*?^\})", re.S | re.M)

Definition = collections.namedtuple("Definition", "words lines seen")


def imports(text):
    """The names that a file imports, and the modules that it names otherwise."""
    names, modules = {}, {}
    for crate, module, rest in USE.findall(text):
        module = module.replace("declared.", "declared:")
        listed = re.search(r"\{(.*?)\}", rest)
        renamed = re.search(r"as (\S+)", rest)
        for name in (n.strip() for n in listed.group(1).split(",")) if listed else []:
            names[name] = (crate, module, name)
        if renamed and not listed:
            modules[renamed.group(1)] = (crate, module)
    return names, modules


def parts(name):
    """What of a name stands in a text: of an operator the parts between its places."""
    return [part for part in name.split("◌") if part] or [name]


def operator_of(line, known):
    """The operator of which the line is a clause, as `a or_else b = ..`."""
    words = line.split()
    return next((k for k in known if "◌" in k and all(p in words for p in parts(k))), None)


def is_code(line):
    return not line.startswith(("use ", "mod ", "pub mod ", "module "))


def definitions_of(path):
    """The definitions of a file of specs/, each with the comment above it."""
    crate, module = path.split("/")[1], path.split("/")[-1].removesuffix(".antt")
    text = open(path, encoding="utf8").read()
    seen, known, words, last, comment = imports(text), {}, {}, None, []
    for line in text.split("\n"):
        if line.lstrip().startswith("--"):
            comment.append(line)
            if last in known and line[0].isspace():
                known[last].append(line)
        elif not line.strip():
            comment = []
        elif is_code(line):
            if not line[0].isspace() and not line.startswith(("unfolding", "where", "}", ")")):
                head = HEAD.match(line).group(1)
                new = head not in known and " : " not in line and " where" not in line
                last = (new and operator_of(line, known)) or head
            if last not in known:
                words[last] = [c for c in comment if not c[0].isspace() and "----" not in c]
            known.setdefault(last, []).append(line)
    return {(crate, module, name): Definition(words.get(name, []), lines, seen) for name, lines in known.items()}


def types_of(path):
    """The types that a file of src/ declares: a contract names them and their fields."""
    crate = path.split("/")[1]
    text = open(path, encoding="utf8").read()
    seen = imports(text.replace("ghost use", "use").replace(";", "\n"))
    return {
        (crate, "declared:" + m[2], m[2]): Definition(m[1].strip().split("\n"), m[0][len(m[1]) :].split("\n"), seen)
        for m in TYPE.finditer(text)
    }


def load():
    found = {}
    for path in sorted(glob.glob("crates/*/specs/**/*.antt", recursive=True)):
        found.update(definitions_of(path))
    for path in sorted(glob.glob("crates/*/src/**/*.rt", recursive=True)):
        found.update(types_of(path))
    return found


def uncommented(lines):
    return [line for line in lines if line.strip() and not line.lstrip().startswith(("--", "//", "#["))]


def named(crate, module, text, seen, found):
    """The definitions that a text names."""
    names, modules = seen
    own = {k[2]: k for k in found if k[:2] == (crate, module)}
    words = {w.strip("«»") for w in WORD.findall(text)}
    for name, key in [*own.items(), *names.items()]:
        if all(part in words for part in parts(name)):
            yield key
    for short, (c, m) in modules.items():
        for name in re.findall(re.escape(short) + r"\.([^\s(){}\[\],;.]+)", text):
            yield c, m, name


def contracts(found):
    """Each entry: its name, its signature with the contract, and the definitions that it names."""
    for place, functions in ENTRIES.items():
        crate, module = place.split("/")
        text = open(f"crates/{crate}/src/{module}.rt", encoding="utf8").read()
        seen = imports(text.replace("ghost use", "use").replace(";", "\n"))
        for function in functions:
            whole = re.search(rf"((?:^//[^\n]*\n)*)^(?:#\[[^\n]*\n)*pub [^\n]*fn {function}\b.*?\n\{{", text, re.S | re.M).group(0)[:-2]
            yield function, whole, list(named(crate, "", whole[whole.index("ensures") :], seen, found))


def reach(start, found):
    """The definitions that some reach, these before those that name them."""
    order, done = [], set()

    def visit(key):
        if key in done or key not in found:
            return
        done.add(key)
        entry = found[key]
        for below in named(key[0], key[1], "\n".join(uncommented(entry.lines)), entry.seen, found):
            visit(below)
        order.append(key)

    for key in start:
        visit(key)
    return order


def is_type(key):
    return key[1].startswith("declared:")


def shown(key, found):
    entry = found[key]
    place = f"{key[0]}/src" if is_type(key) else f"{key[0]}/specs/{key[1]}"
    return "\n".join([f"[{place}]", *entry.words, *entry.lines])


def roots(found, only=None):
    for name, text, start in contracts(found):
        if only in (None, name):
            yield name, text, start
    for key in STATEMENTS:
        if only in (None, key[2]):
            yield key[2], None, [key]


def print_all(found, only):
    told = set()
    chosen = list(roots(found, only))
    if not chosen:
        sys.exit(f"no entry or statement {only}")
    for name, text, start in chosen:
        order = [key for key in reach(start, found) if key not in told]
        told.update(order)
        print(f"==== {name}\n")
        if text:
            print(text + "\n")
        for key in order:
            print(shown(key, found) + "\n")


def print_count(found, by):
    places = {"crates": 1, "files": 2, "definitions": 3}[by]
    keys = [k for k in reach([key for _, _, start in roots(found) for key in start], found) if not is_type(k)]
    lines = collections.Counter()
    for key in keys:
        lines["/".join(key[:places])] += len(uncommented(found[key].lines))
    for place, count in sorted(lines.items()):
        print(f"{count:6} {place}")
    print(f"{sum(lines.values()):6} in {len(keys)} definitions")


def normal(text, renames):
    """A text with one space between words and today's names."""
    joined = " ".join(text.split())
    for old, new in renames:
        joined = re.sub(rf"(?<![\w'.◌]){re.escape(old)}(?![\w'◌])", new, joined)
    return joined


def print_net(found, renames):
    for name, text, start in roots(found):
        said = normal(" ".join(uncommented((text or "").split("\n"))), renames)
        names = sorted({normal(key[2], renames) for key in reach(start, found)})
        print(f"entry {name}: {said}\n    reaches {' '.join(names)}")
    everything = reach([key for _, _, start in roots(found) for key in start], found)
    for line in sorted(normal(" ".join(uncommented(found[key].lines)), renames) for key in everything):
        print(line)


def main(args):
    found = load()
    if args[:1] == ["--count"]:
        print_count(found, *(args[1:] or ["crates"]))
    elif args[:1] == ["--net"]:
        pairs = [line.split() for line in open(args[1], encoding="utf8")] if args[1:] else []
        print_net(found, [pair for pair in pairs if len(pair) == 2])
    else:
        print_all(found, *(args or [None]))


main(sys.argv[1:])
