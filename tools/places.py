#!/usr/bin/env python3
"""Lists the places in crates/*/src that an older Rattle's forms stand in, by the points of docs/DESIGN-PASS.md.

    tools/places.py            counts for each point and kind; kept: with a line '// kept: REASON' beside it
    tools/places.py -l [POINT] the places themselves, as file:line
"""
import re, sys, collections, pathlib

ROOT = pathlib.Path(__file__).resolve().parent.parent
FILES = sorted(ROOT.glob("crates/*/src/**/*.rt"))
found = []  # (point, kind, file, line, text)


def add(point, kind, file, line, text):
    lines = file.read_text().split("\n")
    near = lines[max(0, line - 5):line + 1]
    kept = any("// kept:" in n for n in near)
    found.append((point, kind, str(file.relative_to(ROOT)), line, " ".join(text.split())[:110], kept))


FN = re.compile(r"^( *)(?:pub(?:\(\w+\))? )?(?:extern \"C\" )?fn (\w+)", re.M)


def functions(text):
    """(name, line, head, clauses, body) of each function."""
    for m in FN.finditer(text):
        depth, i, body = 0, m.end(), None
        clause_depth = 0
        # the body begins at a line that is '{' alone, or at ' {' behind the head
        ind = m.group(1)
        b = re.compile(r"^%s\{$|^[^\n]*(?<=[)>\w]) \{$|\{\}$" % ind, re.M)
        pos = text.rfind("\n", 0, m.start()) + 1
        k = b.search(text, pos)
        if not k:
            continue
        if k.group().endswith("{}"):
            yield m.group(2), text.count("\n", 0, m.start()) + 1, text[m.start():k.start()], "", ""
            continue
        e = text.find("\n%s}" % ind, k.end())
        whole = text[m.start():k.end() - 1]
        c = re.search(r"^\s*(requires|ensures)", whole, re.M)
        head = whole[:c.start()] if c else whole
        clauses = whole[c.start():] if c else ""
        yield m.group(2), text.count("\n", 0, m.start()) + 1, head, clauses, text[k.end():e if e > 0 else None]


def shape(body):
    """A function's text with its own names, types and literals put aside."""
    body = re.sub(r"//[^\n]*", "", body)
    body = re.sub(r'b?"(?:\\.|[^"\\])*"', "S", body)
    body = re.sub(r"b'(?:\\.|[^'\\])+'", "9", body)
    body = re.sub(r"\b\d[\w]*", "9", body)
    seen = {}
    keep = set("let mut if else return match for in while loop break continue as Some None Ok Err true false ref fn pub Self self".split())
    def sub(m):
        w = m.group()
        return w if w in keep else seen.setdefault(w, "v%d" % len(seen))
    return " ".join(re.sub(r"[A-Za-z_]\w*", sub, body).split())


clauses_in = collections.defaultdict(set)
params_in = collections.defaultdict(set)
shapes = collections.defaultdict(list)

for f in FILES:
    text = f.read_text()
    line = lambda i: text.count("\n", 0, i) + 1
    # 1: an Option or a Result taken apart by hand
    for m in re.finditer(r"let (?:Some|Ok)\([^=]*\) = [^;{]*else \{\s*return (?:None|Err\([^;]*\)|Ok\((?:None|false)\)|false);\s*\}", text):
        add(1, "taken apart by let .. else", f, line(m.start()), m.group())
    for m in re.finditer(r"Err\((\w+)\) => (?:return )?Err\((?:[\w:]+\()?\1\)?\)|None => (?:return )?None\b|None => (?:return )?Err\(|Ok\((?:_|\(\))\) => (?:\(\)|Ok\(\(\)\)),", text):
        add(1, "handed on by a match", f, line(m.start()), m.group())
    for m in re.finditer(r"match [^{]* \{\s*(?:Some|Ok|None|Err)\b[^=]*=> (?:true|false),\s*(?:Some|Ok|None|Err|_)\b[^=]*=> (?:true|false),\s*\}", text):
        add(1, "a bool made by a match", f, line(m.start()), m.group())
    for m in re.finditer(r"enum (\w+)(?:<[^>]*>)? \{(.*?)\n\}", text, re.S):
        inner = re.sub(r"//[^\n]*", "", m.group(2))
        inner = re.sub(r"\{[^}]*\}", "(..)", inner)
        variants = [v.strip() for v in re.split(r",(?![^(]*\))", inner) if v.strip() and not v.strip().startswith("ghost")]
        if len(variants) > 1 and sum("(" in v for v in variants) == 1:
            add(1, "an enum of one value and bare cases", f, line(m.start()), m.group(1) + ": " + ", ".join(variants))
    for m in re.finditer(r"-> (?:Result<bool, \w+>|\([^)]*\bbool\)|\(\w+, Result<[^{]*)", text):
        add(1, "a flag or an error beside a value", f, line(m.start()), m.group())
    for m in re.finditer(r"\b(number|reason|kind|byte): u8\b", text):
        add(1, "a number for a kind or a refusal", f, line(m.start()), m.group())
    # 3: loops by an index
    for m in re.finditer(r"^\s*(?:'\w+: )?(for \w+ in [^{]*\.\.[^{]*|while [^{]*)\{", text, re.M):
        kind = "while" if m.group(1).startswith("while") else "for over a range"
        add(3, kind, f, line(m.start(1)), m.group(1))
    # 4: printing, conversion and comparison by hand
    for m in re.finditer(r"impl(?:<[^>]*>)? (?:fmt::)?(Display|From|PartialEq|Ord|PartialOrd|Clone|TryFrom)\b[^{]*", text):
        add(4, "an impl by hand", f, line(m.start()), m.group())
    # 6
    for m in re.finditer(r"struct (\w+)[^{;(]*\{(.*?)\n\}", text, re.S):
        fields = re.findall(r"^\s*(?:pub )?(\w+): ([^\n]*),$", m.group(2), re.M)
        arrays = [n for n, t in fields if re.match(r"\[.*; \d+\]", t)]
        if len(arrays) > 1:
            add(6, "arrays side by side", f, line(m.start()), m.group(1) + ": " + ", ".join(arrays))
        lens = [n for n, t in fields if t == "usize" and n in ("count", "used", "len", "said", "end", "replied", "size")]
        if lens:
            add(6, "a length beside a buffer", f, line(m.start()), m.group(1) + ": " + ", ".join(lens))
    for name, at, head, clauses, body in functions(text):
        where = (str(f.relative_to(ROOT)), at, name)
        for c in re.findall(r"requires(?: \w+)? (\{.*\})", clauses):
            clauses_in[c].add(where)
        flat = " ".join(head.split())
        args = re.search(r"\((.*)\)", flat)
        ps = [re.sub(r"'\w+ ", "", re.sub(r"^mut ", "", p.strip())) for p in re.split(r",(?![^<(]*[>)])", args.group(1))] if args else []
        ps = [p for p in ps if ":" in p and not p.startswith("_")]
        for i in range(len(ps)):
            params_in[(f.parts[len(ROOT.parts) + 1], ps[i])].add(where)
        if re.search(r"\b(at|end|from): usize", flat) and "&mut [u8]" in flat or "size: Size" in flat or "begun: Size" in flat:
            add(6, "a place in a buffer beside it", f, at, flat)
        if body.count("\n") >= 3 and "#[test]" not in head:
            shapes[shape(body)].append(where)
        arms = re.findall(r"^\s*([^\n=]+) => ([^\n{]*),$", body, re.M)
        if body.strip().startswith("match") and len(arms) >= 2 and body.count("=>") == len(arms):
            lit = r"(?:\d+|b'.*'|\".*\"|true|false|(?:Some\()?[A-Z]\w*::\w+\)?|None|f\.write_str\(.*)"
            if all(re.fullmatch(lit, b.strip()) for _, b in arms):
                add(4, "a match from cases to constants", f, at, name)
        if re.search(r"out: &mut Vec<u8>", flat) and re.match(r"(push|tell)_", name) and "/encoding/" not in str(f):
            add(4, "printing by hand", f, at, name)
        words = re.findall(r"if is\((?:\w+\.)?\w+, \"", body)
        if len(words) > 1:
            add(7, "a switch by words", f, at, "%s: %d words" % (name, len(words)))
        steps = re.findall(r"^\s*(?:\d+|[A-Z]\w*::\w+(?:\(.*\)| \{.*\})?) => (?:\w+::)?\w+\(.*\)\??,$", body, re.M)
        if len(steps) > 2:
            add(7, "a match that runs a step", f, at, "%s: %d steps" % (name, len(steps)))

for s, ws in sorted(shapes.items(), key=lambda x: x[1][0]):
    if len(ws) > 1:
        for w in ws:
            add(2, "functions of one shape", ROOT / w[0], w[1], " ~ ".join(x[2] for x in ws))
for c, ws in clauses_in.items():
    if len(ws) > 2:
        for w in sorted(ws):
            add(5, "a requires of three functions or more", ROOT / w[0], w[1], "%s: %s (%d)" % (w[2], c, len(ws)))
together = collections.defaultdict(list)
for (crate, p), ws in params_in.items():
    if len(ws) > 2:
        together[(crate, frozenset(ws))].append(p)
for (crate, ws), ps in together.items():
    if len(ps) > 1:
        for w in sorted(ws):
            add(5, "parameters that come only together", ROOT / w[0], w[1], "%s: %s (%d)" % (w[2], ", ".join(sorted(ps)), len(ws)))

want = [a for a in sys.argv[1:] if a != "-l"]
if "-l" in sys.argv:
    for p, k, f, l, t, kept in sorted(set(found)):
        if not want or str(p) in want:
            print("%d  %s:%d  [%s%s] %s" % (p, f, l, k, ", kept" if kept else "", t))
else:
    places = collections.Counter((p, k) for p, k, *_ in set(found))
    kept = collections.Counter((p, k) for p, k, _, _, _, yes in set(found) if yes)
    print("point  places  kept")
    for (p, k), n in sorted(places.items()):
        print("%5d  %6d  %4d  %s" % (p, n, kept[(p, k)], k))
