#!/usr/bin/env python3
"""Respells the repository's own definitions and lemmas as today's Rattle spells them: words in snake case, a dash only behind a name.

usage: tools/snake_names.py [--check]        in the repository, once, right after /opt/rattle/port/port.py

It writes crates/**/*.antt, *.rt and *.edit. Names that a file imports from the kit, and the goals of proofs/**/Proof.antt, keep theirs.
--check writes nothing and prints the table, and every place where two names would fall together.
"""

import collections
import os
import re
import sys

TOKEN = re.compile(r"[^\s(){}.;,@\"«»\[\]\\`]+")
USE = re.compile(r"^\s*(?:ghost\s+)?(?:pub\s+)?use\s+([\w.+'-]+)\.\{([^}]*)\}", re.M)
DECLARED = re.compile(r"^\s*(?:(?:abbrev|unfoldable|pub|ruleset|axiom|data|record)\s+)*([^\s(){}.;,@\"«»\[\]\\:]+)\s*:(?=\s|$)", re.M)
PART = re.compile(r"^[a-z]+\d*(?:[A-Z][a-z\d]*)+'*$")
# What would fall together with another name, or has letters that no rule splits.
GIVEN = {
    "is-less": "less_view", "is-equal": "equal_view", "isIn-snoc": "is_in-append_one",
    "heldAExpr": "held_aexpr", "mapAExpr": "map_aexpr", "placedAExpr": "placed_aexpr", "toAExpr": "to_aexpr", "isOL": "is_ol", "isOU": "is_ou",
}
# Lemmas that port.py gave the name that a definition takes here, by the file that declares them.
LEMMAS = {
    "is_greater": ("greater_view", "Rattle.truth.specs.Order"), "is_true": ("is_true_lem", "Rattle.merge.proofs.Whole"),
    "number_ok": ("number_ok_lem", "Rattle.files.proofs.OneBlock"), "read_back": ("read_back_lem", "Rattle.merge.proofs.Reread"),
    "row_listed": ("row_listed_lem", "Rattle.screen_rows.proofs.Listed"), "same_parts": ("same_parts_lem", "Rattle.places.proofs.Parts"),
    "word_sum": ("word_sum_lem", "Rattle.checksum.proofs.Words"),
}


def files():
    for folder, dirs, names in os.walk("crates"):
        dirs[:] = sorted(d for d in dirs if d != "out")
        for n in sorted(names):
            if n.endswith((".antt", ".rt", ".edit")):
                yield os.path.join(folder, n)


def read(path):
    with open(path, encoding="utf-8") as f:
        return f.read()


def snake(part):
    if not PART.match(part):
        return part
    return re.sub(r"(?<=[a-z\d])([A-Z])", lambda m: "_" + m[1].lower(), part)


def code(text):
    return re.sub(r"^\s*--.*$", "", text, flags=re.M)


def imports(text, crates):
    """The names that the file imports from the kit."""
    found = set()
    for module, names in USE.findall(text):
        parts = module.split(".")
        if not (parts[0] == "Rattle" and parts[1] in crates):
            for n in names.split(","):
                found.add(n.split(" as ")[-1].strip())
    return found


def lemmas(path, text):
    """The text with the names of LEMMAS, in the files that declare or import them."""
    for old, (new, module) in LEMMAS.items():
        crate, kind, name = module.split(".")[1:]
        here = path == f"crates/{crate}/{kind}/{name}.antt"
        if here or re.search(re.escape(module) + r"\.\{[^}]*\b" + old + r"\b", text):
            text = re.sub(r"(?<![.\w'-])" + old + r"(?![\w'-])", new, text)
    return text


def generated(path):
    return path.endswith("/Proof.antt") or path.endswith("/Answers.antt")


def table(texts, crates):
    words = set("length take drop append get_or set_at put cond not map".split())
    declared = collections.Counter()
    for path, text in texts.items():
        if path.endswith(".antt") and not generated(path):
            names = set(DECLARED.findall(code(text)))
            for n in names:
                declared[n] += 1
            if "/specs/" in path:
                words |= {n for n in names if "-" not in n}
    words |= {w for t in texts.values() for n in imports(t, crates) for w in [n] if "-" not in n and not re.search(r"[◌ℕ]", n)}
    words -= {"a", "b", "c", "is", "or", "and", "in", "of", "to", "no", "all", "some"}
    turned = {}
    for path, text in texts.items():
        if not path.endswith(".antt"):
            continue
        for w in set(TOKEN.findall(code(text))):
            parts = w.split("-")
            if any(PART.match(p) for p in parts) and (len(parts) == 1 or w in declared):
                turned[w] = None
            elif len(parts) > 1 and w in declared and all(re.match(r"^[A-Za-z_]\w*'*$", p) for p in parts):
                turned[w] = None
    for w in turned:
        parts = w.split("-")
        new = snake(parts[0])
        for p in parts[1:]:
            fact = re.match(r"^[A-Z]", new) or re.match(r"^[A-Z]", p)
            new += ("-" if new in words or new in {snake(x) for x in words if snake(x) == new} or fact else "_") + snake(p)
        turned[w] = new
    taken = {w for p, t in texts.items() for w in TOKEN.findall(code(t)) if not generated(p)} - set(turned)
    of_definitions = {b for a, b in turned.items() if "-" not in a}
    for w, new in turned.items():
        if "-" in w and (new in of_definitions or new in taken):
            turned[w] = new + "_lem"
    turned.update({a: b for a, b in GIVEN.items() if a in turned})
    return {a: b for a, b in turned.items() if a != b}


def main(argv):
    crates = set(os.listdir("crates"))
    texts = {p: read(p) for p in files()}
    turned = table(texts, crates)
    back = collections.defaultdict(set)
    for a, b in turned.items():
        back[b].add(a)
    tokens = {}
    for p, t in texts.items():
        if p.endswith(".rt"):
            t = re.sub(r"//.*", "", t)
            names = re.findall(r"\bfn\s+\w+(?:<[^>]*>)?\(([^)]*)\)", t) + re.findall(r"\bconst\s+(\w+\s*:)", t) + re.findall(r"^\s+(?:pub )?(\w+:)", t, re.M)
            own = {w for ps in names for w in re.findall(r"(\w+)\s*:", ps)}
            clauses = " ".join(re.findall(r"(?:requires|ensures|ghost use)\b[^\n]*", t))
            tokens[p] = own | {w for w in TOKEN.findall(clauses) if w in turned}
        elif p.endswith(".edit") or generated(p):
            tokens[p] = set()
        else:
            tokens[p] = set(re.findall(r"(?<![.\w'])[A-Za-z_][\w'-]*", code(t)))
    where = collections.defaultdict(set)
    for p, ts in tokens.items():
        for t in ts:
            where[t].add(p)
    falls = []
    for b, many in sorted(back.items()):
        for a in sorted(many):
            others = (many - {a}) | ({b} if b in where else set())
            for o in sorted(others):
                both = where[a] & where[o]
                if both:
                    falls.append((b, a, o, len(both), sorted(both)[0]))
    for path, text in texts.items():
        before = text
        if path.endswith(".antt"):
            text = lemmas(path, text)
        own = imports(text, crates)

        def new(m):
            w = m[0]
            return w if w in own or w not in turned else turned[w]

        if path.endswith(".rt"):
            lines = []
            for l in text.split("\n"):
                at = l.find("//")
                head, tail = (l, "") if at < 0 else (l[:at], l[at:])
                tail = re.sub(r"`[^`]*`", lambda m: TOKEN.sub(new, m[0]), tail)
                lines.append(TOKEN.sub(new, head) + tail)
            after = "\n".join(lines)
        elif path.endswith(".edit"):
            after = "\n".join(TOKEN.sub(new, l) if re.match(r"(old|new):", l) else l for l in text.split("\n"))
        else:
            lines = []
            for l in text.split("\n"):
                if l.lstrip().startswith("--"):
                    lines.append(re.sub(r"`[^`]*`", lambda m: TOKEN.sub(new, m[0]), l))
                else:
                    lines.append(TOKEN.sub(new, l))
            after = "\n".join(lines)
        if after != before and "--check" not in argv:
            with open(path, "w", encoding="utf-8") as f:
                f.write(after)
    if "--check" in argv:
        for a, b in sorted(turned.items()):
            print(a, "->", b)
        for f in falls:
            print("falls together:", *f)
    print(len(turned), "names,", len(falls), "fall together")


if __name__ == "__main__":
    main(sys.argv[1:])
