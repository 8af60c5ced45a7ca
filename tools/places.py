#!/usr/bin/env python3
# Lists the places in src/ that the points of the design pass speak of, and counts them: `tools/places.py [FOLDER]`.
# It finds candidates by their text; docs/DESIGN-PASS.md says of each what became of it.
import collections, glob, os, re, sys

root = sys.argv[1] if len(sys.argv) > 1 else "."
files = sorted(f for f in glob.glob(os.path.join(root, "crates/*/src/**/*.rt"), recursive=True)
               if not f.endswith("tests.rt"))
text = {os.path.relpath(f, root): open(f).read().split("#[cfg(test)]\nmod tests {")[0] for f in files}


def lines(pattern, skip=None):
    found = []
    for name, body in text.items():
        for n, line in enumerate(body.split("\n"), 1):
            if re.search(pattern, line) and not (skip and re.search(skip, line)):
                found.append((name, n, line.strip()))
    return found


def functions():
    # name of file, line, head with contract, body
    for name, body in text.items():
        for m in re.finditer(r"^( *)(?:pub(?:\(crate\))? )?fn (\w+)[^;{]*?(?=\n\1\{|\n\1    (?:requires|ensures)|\{)", body, re.M):
            indent = m.group(1)
            end = body.find("\n" + indent + "}", m.start())
            whole = body[m.start():end]
            yield name, body[:m.start()].count("\n") + 1, m.group(2), whole


def show(title, found):
    print(f"{title}: {len(found)}")
    for name, n, what in found:
        print(f"    {name}:{n}  {what[:110]}")


print("== 1: own Option or Result, a flag with a value, numbers for kinds or refusals")
show("enums of our own", lines(r"^\s*(pub(\(crate\))? )?enum \w"))
show("yes or no of a call that writes", [(f, n, name) for f, n, name, w in functions()
     if re.search(r"-> bool\b", w) and "&mut" in w.split("ensures")[0]])
show("a number that stands for nothing", [(f, n, name) for f, n, name, w in functions()
     if re.search(r"-> u8\b", w.split("ensures")[0]) and w.rstrip().endswith("\n    0")])
show("0 in the place of none, by comment or arm", lines(r"(=> 0,$|: 0,$|\b0 where\b|\bor 0\b)", r"^\s*(clock|given|used|load|key|place|taken|charset|len)\b"))
show("numbers for kinds", lines(r"\b(content_type|subtype|kind): u\d+"))

print("== 2: twins")
bodies = collections.defaultdict(list)
for f, n, name, w in functions():
    inner = w[w.find("{\n", w.rfind("ensures")) if "ensures" in w else w.find("{"):]
    shape = re.sub(r"\b[A-Za-z_]\w*\b|\d[\d_]*", "x", re.sub(r"//[^\n]*", "", inner))
    shape = re.sub(r"\s+", "", shape)
    if len(shape) > 24:
        bodies[shape].append((f, n, name))
twins = [(g[0][0], g[0][1], ", ".join(f"{os.path.basename(f)}:{name}" for f, n, name in g)) for g in bodies.values() if len(g) > 1]
show("bodies of one shape", twins)
structs = collections.defaultdict(list)
for name, body in text.items():
    for m in re.finditer(r"struct (\w+)(?:<[^>{]*>)? \{\n(.*?)\n\}", body, re.S):
        fields = re.sub(r"\s+", " ", re.sub(r"//[^\n]*|ghost [^\n]*", "", m.group(2)))
        shape = re.sub(r"\b[a-z]\w*\b", "x", fields)
        structs[shape].append((name, body[:m.start()].count("\n") + 1, m.group(1)))
show("structs of one shape", [(g[0][0], g[0][1], ", ".join(n for _, _, n in g)) for g in structs.values() if len(g) > 1])

print("== 3: loops")
show("loops by an index or a condition", lines(r"^\s*(for \w+ in [\w.()]+\.\.|while )"))
show("loops that only look for one", [(f, n, name) for f, n, name, w in functions()
     if re.search(r"for [^\n]*\{\n\s*if [^\n]*\{\n\s*return ", w)])

print("== 4: equality, order, copying, conversion and printing by hand")
show("own comparisons", lines(r"fn (equals|is|same_\w+|is_above)\b"))
show("copies of ranges or orders by match", lines(r"Ordering::(Less|Equal|Greater) =>"))
show("numbers of an enum by match", lines(r"^\s*\w+::\w+ => \d+,$"))
show("a match that only hands on", lines(r"^\s*Ok\((\w+)\) => (Ok\(\1\)|\1),$"))
show("digits by hand", lines(r"b'0' \+|- b'0'|b'a'\.\.=b'f'"))
show("wrappers for printing", [(f, n, what) for f, n, what in lines(r"^(pub(\(crate\))? )?struct \w+(<.*>)?\(.*\);$")
                               if re.search(r"fmt::Display for " + re.search(r"struct (\w+)", what).group(1) + r"\b", text[f])])

print("== 5: facts and parameters that travel together")
clauses = collections.defaultdict(list)
pairs = collections.defaultdict(set)
for f, n, name, w in functions():
    for m in re.finditer(r"requires (?:\w+ )?\{ (.*) \}", w):
        clauses[re.sub(r"\.(old|now)\b", "", m.group(1))].append((f, n, name))
    head = w[:w.find("ensures")] if "ensures" in w else w
    head = head[:head.find("requires")] if "requires" in head else head
    args = re.findall(r"(\w+): ([^,()]+(?:<[^>]*>)?)", head[head.find("("):head.rfind("->") if "->" in head else None])
    names = [a for a, t in args]
    for i, a in enumerate(names):
        for b in names[i + 1:]:
            pairs[(a, b)].add((f, n, name))
show("a premise of three functions or more", [(v[0][0], v[0][1], f"{len(v)} x {c}") for c, v in clauses.items() if len(v) > 2])
show("two parameters together in three functions or more", [(sorted(v)[0][0], sorted(v)[0][1], f"{len(v)} x {a}, {b}") for (a, b), v in pairs.items() if len(v) > 2])

print("== 6: buffers with a length, searches by hand")
show("an array in a struct", lines(r"^\s+(pub(\(crate\))? )?\w+: \[.*; \w+\],$"))
show("a count beside entries", lines(r"\bused: usize"))

print("== 7: switches and tables of functions")
show("traits of tests", lines(r"trait \w*Test"))
show("tests of such a trait", lines(r"^impl.* \w*Test(<.*>)? for "))

print("== 8: proofs")
for kind, pattern in (("answers", "crates/*/proofs/**/Answers.antt"), ("invariants", "crates/*/proofs/**/Invariants.antt"),
                      ("lemmas", "crates/*/proofs/*.antt")):
    found = glob.glob(os.path.join(root, pattern), recursive=True)
    print(f"{kind}: {len(found)} files, {sum(len(open(f).readlines()) for f in found)} lines")
