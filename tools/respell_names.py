#!/usr/bin/env python3
"""Brings the names that this repository declares to today's spelling: words in snake case, joined by `_`; a dash only where it joins the names of two
definitions, as in `length-empty_rows`. Types, modules and Rust names keep theirs.

usage: tools/respell_names.py [--check]      at the top of the repository

It was run once, right after the toolchain's own script. A name counts as declared where a file of specs/ or proofs/ gives it a signature, but for the
`Proof.antt` of a function, whose names are the toolchain's. --check --table prints the table, and each place where two names
would fall together, but for those of a source, where a definition and a Rust function may have one name.
"""

import os
import re
import sys

TOKEN = re.compile(r'[^\s(){}.;,@"«»`\[\]]+')
DECLARED = re.compile(r"^(\s*)((?:pub |abbrev |unfoldable |opaque )*)(?:\{)?([^\s:(){}]+)\}?((?: [^\s:(){}]+)*) :(?=\s)", re.M)
# The library's words for lists and numbers that lemmas begin or end with.
WORDS = """length get_or take drop set append sum map reverse replicate min max concat filter count fold insert mem zero suc
pos neg add sub mul div mod pow""".split()

# Names that the toolchain's script left, since a file had the new one already, and one that the library has.
BY_HAND = {
    "storeWords": "store_words",
    "store-words": "store_words_lem",
    "isHeld": "holds_id",
    "is-held": "is_held",
    "bit-or": "bit_or_lem",
    # Variables.
    "lowX": "low_x",
    "lowY": "low_y",
    "highX": "high_x",
    "highY": "high_y",
    "tableRows": "table_rows",
    "isIn": "is_in",
    "inBlocks": "in_blocks",
    "countPassing": "count_passing",
}


def files(root):
    for top in ("crates",):
        for folder, dirs, names in os.walk(os.path.join(root, top)):
            dirs[:] = sorted(d for d in dirs if d != "out")
            for n in sorted(names):
                if n.endswith((".antt", ".rt")):
                    yield os.path.join(folder, n)


def snake(word):
    return re.sub(r"(?<=[a-z0-9₀-₉])([A-Z])", lambda m: "_" + m[1].lower(), word)


def is_camel(name):
    return bool(re.match(r"[a-zλ]", name)) and bool(re.search(r"[a-z0-9][A-Z]", name))


def declared(root):
    names, plain = {}, set()
    for p in files(root):
        if not p.endswith(".antt") or p.endswith("/Proof.antt"):
            continue
        text = open(p, encoding="utf-8").read()
        text = re.sub(r"(?m)^\s*--.*$", "", text)
        for m in DECLARED.finditer(text):
            for name in [m[3]] + m[4].split():
                names.setdefault(name, set()).add(p)
                if "/specs/" in p and "-" not in name and re.match(r"[a-z]", name):
                    plain.add(snake(name))
    return names, plain


def parts(words, known):
    """The words of a dashed name cut into names of definitions, or None."""
    if not words:
        return []
    for n in range(len(words), 0, -1):
        head = "_".join(words[:n])
        if head in known:
            rest = parts(words[n:], known)
            if rest is not None:
                return [head] + rest
    return None


def spelled(name, known):
    if not re.match(r"[a-z]", name) or re.search(r"[◌≡≤<+*∷]", name):
        return name
    words = name.split("-")
    if any(re.match(r"[A-Z]", w) for w in words):
        return name
    words = [snake(w) for w in words]
    if len(words) == 1:
        return words[0]
    cut = parts(words, known)
    if cut and len(cut) > 1 and (cut[0] in WORDS or "_" in cut[0] or "_" in cut[-1]):
        return "-".join(cut)
    return "_".join(words)


def table(root):
    """The rows old, new. Where a lemma would get the name of a definition that a file has beside it, it gets `_lem` behind its name."""
    names, plain = declared(root)
    known = plain | set(WORDS)
    turned = {n: spelled(n, known) for n in names}
    seen = {}
    for old, new in turned.items():
        seen.setdefault(new, []).append(old)
    texts = [set(TOKEN.findall(re.sub(r"(?m)^\s*--.*$", "", open(p, encoding="utf-8").read()))) for p in files(root) if p.endswith(".antt")]
    for new, olds in seen.items():
        if len(olds) > 1 and any(sum(o in t for o in olds) > 1 for t in texts):
            # the definition keeps the name
            olds.sort(key=lambda o: (not is_camel(o), "-" in o, o))
            for o in olds[1:]:
                turned[o] = new + "_lem"
    turned.update(BY_HAND)
    return {n: t for n, t in turned.items() if n != t}, names


USE = re.compile(r"\buse\s+([^\s{};]+?)\.?\{([^{}]*)\}")


def others(text, own):
    """The names that a file has from the library."""
    found = set()
    for m in USE.finditer(text):
        words = m[1].split(".")
        if not (words[0] == "Rattle" and len(words) > 1 and words[1] in own):
            found |= {n.split(" as ")[-1].strip() for n in m[2].split(",")}
    return found


def turned_text(text, rows, path):
    def one(m):
        return rows.get(m[0], m[0])

    if path.endswith(".antt"):
        out = []
        for line in text.split("\n"):
            code, dash, note = line, "", ""
            k = re.search(r"(?:^|\s)--\s", line)
            if k:
                code, note = line[: k.start()], line[k.start() :]
                note = TOKEN.sub(lambda m: rows.get(m[0], m[0]) if is_camel(m[0]) else m[0], note)
                note = re.sub(r"`[^`]*`", lambda m: TOKEN.sub(one, m[0]), note)
            out.append(TOKEN.sub(one, code) + note)
        return "\n".join(out)

    # A source: what antt reads (clauses, ghost items), and names in a comment that can be none of Rust's.
    def mine(m):
        return rows.get(m[0], m[0]) if is_camel(m[0]) else m[0]

    text = re.sub(r"\bghost use[^;]*;", lambda m: TOKEN.sub(one, m[0]), text)
    return TOKEN.sub(mine, text)


def main():
    root = os.getcwd()
    rows, names = table(root)
    bad = 0
    seen = {}
    for old, new in sorted(rows.items()):
        seen.setdefault(new, []).append(old)
        if new in names:
            seen[new].append(new)
    # Two names fall together where one file would have both.
    texts = {p: open(p, encoding="utf-8").read() for p in files(root)}
    for new, olds in sorted(seen.items()):
        olds = sorted(set(olds) | {new})
        if len(olds) == 2 and new not in names:
            # the new name may stand in a file as a variable or a name of the library's
            old = [o for o in olds if o != new][0]
            for p, t in texts.items():
                if p.endswith("/Proof.antt") or p.endswith(".rt"):
                    continue
                toks = set(TOKEN.findall(re.sub(r"(?m)^\s*--.*$", "", t)))
                if old in toks and new in toks:
                    print(f"together: {p}: {old} and {new}")
                    bad += 1
            continue
        for p, t in texts.items():
            toks = set(TOKEN.findall(re.sub(r"(?m)^\s*--.*$", "", t)))
            both = [o for o in olds if o in toks]
            if len(both) > 1:
                print(f"together: {p}: {' and '.join(both)}")
                bad += 1
    if "--table" in sys.argv:
        for old, new in sorted(rows.items()):
            print(f"{old}\t{new}")
    if "--check" in sys.argv:
        print(f"{len(rows)} names, {bad} places where two fall together")
        return 1 if bad else 0
    own = set(os.listdir(os.path.join(root, "crates")))
    for p, t in texts.items():
        library = others(t, own)
        new = turned_text(t, {o: n for o, n in rows.items() if o not in library}, p)
        if new != t:
            open(p, "w", encoding="utf-8").write(new)
    print(f"{len(rows)} names")
    return 0


if __name__ == "__main__":
    sys.exit(main())
