#!/usr/bin/env python3
# Respells the repository's own names of definitions, lemmas, record fields and bound variables: words in snake case,
# types in camel case, and a crate whose name a library of the kit has gets another. Run once, at the top of the checkout.
import glob, os, re

# crates renamed because the kit has a library of that name
CRATES = {'hex': 'hexpairs'}
# types that had a small letter, by the file that names them
BY_HAND = {
    'crates/records/specs/Examples.antt': {'said': 'Reads'},
    'crates/rules/proofs/Passes.antt': {'high': 'IsLater'},
}

LETTERS = r"[^\s(){}\[\].,;:\"«»⌜⌝@]"
TOKEN = re.compile(LETTERS + "+")

def files(*patterns):
    found = []
    for p in patterns:
        found += glob.glob(p, recursive=True)
    return sorted(f for f in found if '/out/' not in f)

def spelled(name):
    words = name.replace('′', "'").split('-')
    if name[0].isupper():
        return words[0] + ''.join(w[:1].upper() + w[1:] for w in words[1:])
    return '_'.join(words)

def goals(text):
    # names that the check makes: goals, invariants, measures and what is imported of them
    made = set(re.findall(r"^(?:abbrev |pub )*(\S+) :(?: .*→)? goal\.", text, re.M))
    for m in re.finditer(r"^use \S+\.(?:Goals|Given)\.\{([^}]*)\}", text, re.M):
        made |= {x.strip() for x in m.group(1).split(',')}
    return made

def own(text, made):
    names = set()
    sig = re.compile(r"^\s*(?:(?:pub|abbrev|unfoldable|ruleset|mutual) )*(" + LETTERS + r"+)(?: \([^=]*?\)| \{[^=]*?\})* :(?=\s)", re.M)
    names |= set(sig.findall(text))
    names |= set(re.findall(r"(?:record|data) (" + LETTERS + r"+)", text))
    names |= set(re.findall(r"let (" + LETTERS + r"+)[^=]*?=", text))
    for m in re.finditer(r"[({]((?:" + LETTERS + r"+ )+):(?=\s)", text):
        names |= set(m.group(1).split())
    for m in re.finditer(r"λ ([^.]*?)\.(?=\s)", text):
        names |= set(TOKEN.findall(m.group(1)))
    for line in text.split('\n'):
        head = re.match(r"^\s*(" + LETTERS + r"+(?: [^=]*)?) =(?=\s)", line)
        if head:
            names |= set(re.findall(r"(?<![.\w])" + LETTERS + "+", head.group(1))[1:])
    return {n for n in names if n not in made}

def foreign(text):
    # names that come from the kit's libraries
    taken = set()
    for m in re.finditer(r"use ([A-Za-z]\S*)\.\{([^}]*)\}", text):
        parts = m.group(1).split('.')
        if parts[0] == 'Rattle' and len(parts) > 1 and os.path.isdir('crates/' + parts[1]):
            continue
        taken |= {x.strip().split(' as ')[0] for x in m.group(2).split(',')}
    return taken

def head_line(text):
    # the line by which the check tries its tactics, above the first item of a crate's root file
    if '#![tactic(' in text:
        return text
    lines = text.split('\n')
    n = 0
    while n < len(lines) and lines[n].startswith('//'):
        n += 1
    return '\n'.join(lines[:n] + ['#![tactic(auto)]', ''] + lines[n:])

def rename_crates():
    for old, new in CRATES.items():
        if os.path.isdir('crates/' + old):
            os.rename('crates/' + old, 'crates/' + new)
        lines = open('crates.txt').read().split('\n')
        lines = [l if l.startswith('#') else re.sub(r"(?<!\S)" + old + r"(?=[\s:]|$)", new, l) for l in lines]
        open('crates.txt', 'w').write('\n'.join(lines))
        for f in files('crates/*/specs/*.antt', 'crates/*/proofs/**/*.antt', 'crates/*/src/**/*.rt'):
            t = open(f).read()
            u = re.sub(r"\b" + old + r"::", new + '::', t.replace('Rattle.' + old + '.', 'Rattle.' + new + '.'))
            if u != t:
                open(f, 'w').write(u)

def main():
    rename_crates()
    for f in files('crates/*/src/lib.rt', 'crates/*/src/main.rt'):
        t = open(f).read()
        open(f, 'w').write(head_line(t))
    antt = files('crates/*/specs/*.antt', 'crates/*/proofs/**/*.antt')
    rust = files('crates/*/src/**/*.rt')
    texts = {f: open(f).read() for f in antt + rust}
    made, taken, names = set(), set(), set()
    for f in antt:
        made |= goals(texts[f])
    for f in texts:
        taken |= foreign(texts[f])
    for f in antt:
        names |= own(texts[f], made)
    for f in rust:
        for m in re.finditer(r"let (" + LETTERS + r"+) =", texts[f]):
            names.add(m.group(1))
    turned = {n: spelled(n) for n in names if re.search(r"[A-Za-z0-9]-[A-Za-z0-9]|′", n) and n not in taken}
    turned = {n: s for n, s in turned.items() if n != s}
    shadow = {}
    for n, s in turned.items():
        shadow.setdefault(s, []).append(n)
    for s, ns in sorted(shadow.items()):
        if len(ns) > 1:
            print('together:', s, ns)
    def turn(text):
        return TOKEN.sub(lambda m: turned.get(m.group(0), m.group(0)), text)
    for f in texts:
        # a word of the library under another word's name, which the gate refuses
        here = dict(BY_HAND.get(f, {}))
        for word, other in re.findall(r"(\w+) as (\w+)", ' '.join(re.findall(r"use \S+\.\{[^}]*\}", texts[f]))):
            here[other] = word
            texts[f] = texts[f].replace(word + ' as ' + other, word)
        if here:
            texts[f] = TOKEN.sub(lambda m: here.get(m.group(0), m.group(0)), texts[f])
    for f, t in texts.items():
        tokens = set(TOKEN.findall(t))
        for n in sorted(tokens & set(turned)):
            if turned[n] in tokens:
                print('look:', f, n, 'beside', turned[n])
        if f.endswith('.rt'):
            out = []
            for line in t.split('\n'):
                plain = line.lstrip().startswith('//')
                out.append(line if plain else turn(line))
            new = '\n'.join(out)
        else:
            new = turn(t)
        open(f, 'w').write(new)
    print(len(turned), 'names')
    left = {}
    for f in texts:
        for tok in TOKEN.findall(open(f).read() if f.endswith('.antt') else ''):
            if re.search(r"[A-Za-z0-9]-[A-Za-z]", tok) and tok not in made and tok not in taken:
                left.setdefault(tok, f)
    for tok, f in sorted(left.items()):
        print('left:', tok, f)

main()
