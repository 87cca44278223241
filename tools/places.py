#!/usr/bin/env python3
"""Lists places in crates/*/src that may have an older form: python3 tools/places.py [FOLDER] [-v].

FOLDER is a checkout (this one, if none is given); -v prints each place. What it finds are places to look at, not faults:
docs/DESIGN-PASS.md says what became of each.
"""
import collections
import pathlib
import re
import sys

args = [a for a in sys.argv[1:] if not a.startswith("-")]
verbose = "-v" in sys.argv
top = pathlib.Path(args[0] if args else ".")
files = sorted(top.glob("crates/*/src/**/*.rt"))
text = {f: f.read_text() for f in files}
name = {f: str(f.relative_to(top / "crates")) for f in files}


def code(line):
    return line.split("//")[0]


def grep(pattern, *, where=None):
    rx = re.compile(pattern)
    out = []
    for f in files:
        for n, line in enumerate(text[f].split("\n"), 1):
            part = code(line)
            if re.match(r"\s*(ghost|requires|ensures)\b", part):
                continue
            if rx.search(part) and (where is None or where(line)):
                out.append(f"{name[f]}:{n}: {line.strip()[:110]}")
    return out


FN = re.compile(r"^( *)((?:pub(?:\([^)]*\))? )?(?:unsafe )?(?:extern \"C\" )?fn (\w+)[^\n]*(?:\n(?!\1\{)[^\n]*)*?)\n\1\{\n(.*?)\n\1\}", re.M | re.S)


def functions():
    for f in files:
        for m in FN.finditer(text[f]):
            yield f, m.group(3), m.group(2), m.group(4)


def shape(body):
    body = re.sub(r"//[^\n]*", "", body)
    tokens = re.findall(r"b?\"[^\"]*\"|[A-Za-z_]\w*|\d\w*|\S", body)
    keep = {"let", "mut", "if", "else", "match", "return", "for", "while", "loop", "in", "as", "self", "Ok", "Err", "Some", "None", "true", "false"}
    return " ".join("N" if t[0].isdigit() else t if t in keep or not (t[0].isalpha() or t[0] == "_" or t[0] == '"') else "I" for t in tokens)


def twins():
    groups = collections.defaultdict(list)
    for f, n, head, body in functions():
        s = shape(body)
        if len(s) > 12:
            groups[s].append(f"{name[f]}: {n}")
    return [" = ".join(g) for g in groups.values() if len(g) > 1]


def clauses():
    found = collections.defaultdict(set)
    for f, n, head, body in functions():
        for m in re.finditer(r"(requires|ensures)(?: \w+)? \{ (.*?) \}$", head, re.M):
            fact = re.sub(r"\b\d+\b", "N", m.group(2))
            found[m.group(1) + " " + fact].add(f"{name[f]}: {n}")
    return [f"{len(v)} times: {k[:120]}" for k, v in sorted(found.items(), key=lambda kv: -len(kv[1])) if len(v) >= 3]


def together():
    found = collections.defaultdict(set)
    for f, n, head, body in functions():
        sig = head.split("requires")[0].split("ensures")[0]
        inner = sig[sig.find("(") + 1:]
        ps = [p.strip() for p in re.split(r",(?![^<(\[]*[>)\]])", inner[:inner.rfind(")")].replace("\n", " ")) if ":" in p]
        ps = [re.sub(r"'\w+ ", "", p).removeprefix("mut ") for p in ps]
        for i in range(len(ps)):
            for j in range(i + 1, len(ps)):
                found[(ps[i], ps[j])].add(f"{name[f]}: {n}")
    return [f"{len(v)} times: {a}, {b}" for (a, b), v in sorted(found.items(), key=lambda kv: -len(kv[1])) if len(v) >= 3]


POINTS = [
    ("a variant that says that there's nothing", grep(r"^\s*(None|Nothing|End|Bad|Pass|Stands|Going|Whole)(,|\()")),
    ("a bool handed back", grep(r"fn .*->\s*(Result<|Option<)?bool\b")),
    ("a bool beside values in a struct or variant", grep(r"^\s*(pub )?\w+: bool,|\(.*\bbool\b.*\),$")),
    ("a bare number for a refusal", grep(r"refuse\(\d+\)")),
    ("a bare number for a kind", grep(r"kind(:| ==) \d+|of_(program|words)\(\d+")),
    ("a number that says where the sweep is, or nought for none", grep(r"\bat (==|<|-) \d+|OWING|return 0;|^\s+0$|as u64\)$")),
    ("functions of one shape", twins()),
    ("while and loop", grep(r"^\s*(while|loop)\b")),
    ("for over indices", grep(r"\bfor \w+ in [\w.]+\.\.")),
    ("impls and conversions by hand", grep(r"^impl\b.* (From|TryFrom|PartialEq|Eq|Ord|PartialOrd|Clone|Copy|Display|Debug)\b.* for|fn (same|clamp|program|encode\w*|decode\w*)\b")),
    ("clauses that stand in three contracts or more", clauses()),
    ("parameters that travel together in three functions or more", together()),
    ("arrays and lent slices in structs", grep(r"^\s*(pub )?\w+: (\[.*; \w+\]|&'\w+ mut \[.*\]),")),
    ("counts beside them", grep(r"^\s*(pub )?(len|many|first|shown|typed|noted|from|room)\b.*: .*(usize|u16)")),
    ("a match that picks the step, tables of functions", grep(r"\bdyn\b|\bfn\(|impl Fn|=> (files|screen|self)(::|\.)\w+\(")),
]
for title, places in POINTS:
    print(f"{len(places):4}  {title}")
    if verbose:
        for p in places:
            print("        " + p)
