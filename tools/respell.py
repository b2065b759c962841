#!/usr/bin/env python3
"""Respells the repository's own definitions and lemmas as today's Rattle spells names.

    tools/respell.py [--list]        once, at the top, after port.py

A word, a lemma, a field and a constructor are in snake case. A dash stays only where it joins two names of functions, as in
`length-concat`; elsewhere it becomes an underscore. Names that Rattle makes (goals, steps) stand in files below proofs/F/ and stay.
A name is respelled only in the files that see it: the one that declares it and those that import it. Where the new name stands
already in such a file, the old one stays, and the script says so.
"""
import collections
import glob
import re
import sys

ENDS = r"(?<![^\s(){}\[\],;.@{`])"
TOKEN = re.compile(r"[^\s(){}\[\],;.`\"]+")

LIBRARY = set(
    "length take drop map filter concat append reverse replicate sum product suc min max all any mem cons nil get set head last"
    " add sub mul div mod pow shl shr lt le gt ge".split()
)

# Names whose mechanical spelling falls together with another one's.
CHOSEN = {
    n: re.sub("-", "_", n) + "_lem"
    for n in ("class-line", "degree-modulo", "first-map", "first_marks", "row-line", "sum-from", "unsigned-value")
} | {"array-of": "array_lent"}


def files():
    return sorted(
        f
        for pattern in ("crates/*/specs/**/*.antt", "crates/*/proofs/**/*.antt", "crates/*/src/**/*.rt")
        for f in glob.glob(pattern, recursive=True)
    )


def made(f):
    """Whether a file answers the goals of one function: the names in it are Rattle's."""
    return bool(re.search(r"/Proof(\.antt|/)|/(Invariants|Answers)\.antt", f))


def declared(text):
    """The names that a file declares at its top, and the fields and constructors below them; with each, whether it is a function."""
    names, members = {}, set()
    inside = False
    for line in text.split("\n"):
        if line.startswith("--"):
            continue
        top = re.match(r"^((?:unfoldable |abbrev |irreducible |pub )*)(data |record )?([^\s:(){}\[\]]+)(?=[\s:]).*", line)
        if top and top.group(3) not in ("use", "mod", "pub", "open", "let", "unfolding", "mutual", "--", "module"):
            inside = bool(top.group(2))
            kind = top.group(1) + (top.group(2) or "")
            if inside or ":" in line:
                word = "unfoldable" in kind or "abbrev" in kind or inside
                names[top.group(3)] = names.get(top.group(3), False) or word
            continue
        member = re.match(r"^  (?:pub )?([^\s:(){}\[\]]+)(?: [^=:]*)? ?:", line)
        if inside and member and not member.group(1).startswith("--"):
            members.add(member.group(1))
        elif line and not line.startswith(" "):
            inside = False
    return names, members


def imports(text):
    """(module, name, alias) of each name that a file imports."""
    for m in re.finditer(r"(?m)^\s*(?:pub )?(?:ghost )?(?:pub )?use ([\w.'«»]+)\.\{([^}]*)\}", text):
        for item in m.group(2).split(","):
            parts = item.split()
            if parts:
                yield m.group(1), parts[0], parts[2] if len(parts) == 3 and parts[1] == "as" else None


def module_of(f):
    m = re.match(r"crates/([^/]+)/(specs|proofs)/(.*)\.antt$", f)
    if not m:
        return None
    return "Rattle.%s.%s.%s" % (m.group(1), m.group(2), m.group(3).replace("/", "."))


def snake(name):
    return re.sub(r"(?<=[a-z0-9])([A-Z])", lambda m: "_" + m.group(1).lower(), name)


def respelled(name, functions):
    if name in CHOSEN:
        return CHOSEN[name]
    if name[0] == "◌" or name.startswith("+"):
        return name
    pieces = name.split("-")
    if name[0].islower():
        pieces = [snake(p) if re.match(r"^[a-z].*[A-Z]", p) else p for p in pieces]
    parts = []
    while pieces:
        # the longest run of pieces that is a function's name
        k = max([1] + [k for k in range(2, len(pieces) + 1) if "_".join(pieces[:k]) in functions])
        parts.append("_".join(pieces[:k]))
        pieces = pieces[k:]
    joined = parts[0]
    for left, right in zip(parts, parts[1:]):
        both = left in functions and right in functions
        joined += ("-" if both else "_") + right
    return joined


def standing(f, text):
    """The names that stand in a file by themselves: no part of a path, and no function of src/, whose names words may share."""
    text = re.sub(r"(?m)(^|\s)(?:--|//).*", "", text)
    names = set()
    for m in TOKEN.finditer(text):
        path = text[: m.start()].endswith(".") or text[m.end() :].startswith(".")
        call = f.endswith(".rt") and (text[m.end() :].startswith("(") or re.search(r"(fn |::)$", text[: m.start()]))
        if not path and not call:
            names.add(m.group(0))
    return names


def main():
    texts = {f: open(f).read() for f in files()}
    where = {}
    members = collections.defaultdict(set)
    functions = set(LIBRARY)
    for f, text in texts.items():
        if f.endswith(".antt") and not made(f):
            names, own = declared(text)
            where[module_of(f)] = (f, names)
            for m in own:
                members[m].add(f)
            functions |= {n for n, word in names.items() if word and n[0].islower()}
    functions |= {snake(n) for n in functions}

    taken = {f: standing(f, text) for f, text in texts.items()}
    sees = collections.defaultdict(set)  # (module, name) -> files
    for module, (f, names) in where.items():
        for n in names:
            sees[module, n].add(f)
    # A name passed on by 'pub use' keeps its module here: look through it.
    passed = {}
    for f, text in texts.items():
        for m in re.finditer(r"(?m)^pub use ([\w.'«»]+)\.\{([^}]*)\}", text):
            for item in m.group(2).split(","):
                if item.strip() and module_of(f):
                    passed[module_of(f), item.split()[-1]] = (m.group(1), item.split()[0])
    for f, text in texts.items():
        for module, name, alias in imports(text):
            at = (module, name)
            while at in passed:
                at = passed[at]
            if at in sees:
                sees[at].add(f)

    renames = collections.defaultdict(dict)  # file -> old -> new
    said, done = [], {}
    for (module, name), seen in sorted(sees.items()):
        new = respelled(name, functions)
        if new == name:
            continue
        clash = sorted(f for f in seen if new in taken[f] and new not in CHOSEN)
        if clash:
            said.append("stays: %s.%s: %s stands in %s" % (module, name, new, clash[0]))
            continue
        if any(new in renames[f].values() for f in seen):
            said.append("stays: %s.%s: another name falls together with %s" % (module, name, new))
            continue
        for f in seen:
            renames[f][name] = new
        done[module, name] = new
    fields = {}
    for name in sorted(members):
        new = respelled(name, set())
        if new != name:
            fields[name] = new

    for f, text in texts.items():
        table = dict(renames[f])
        library = {n for module, n, alias in imports(text) if not any(module == m for m in where)}

        def turn(m):
            token, before = m.group(0), text[: m.start()]
            if before.endswith("."):
                if token in fields and not re.search(r"(tie|goal|c|before|loop|args)\.$", before[-8:]):
                    return fields[token]
                return fields.get(token, token) if token in fields else token
            if token in table:
                return table[token]
            if token in fields and token not in library and not (made(f) and re.match(r"\n%s( |:)" % re.escape(token), text[m.start() - 1 : m.end() + 1])):
                return fields[token]
            return token

        new = TOKEN.sub(turn, text)
        if new != text and "--list" not in sys.argv:
            open(f, "w").write(new)
    # Pages and edits name the same things.
    names = {}
    for (module, name), new in done.items():
        names.setdefault(name, set()).add(new)
    pages = glob.glob("*.md") + glob.glob("docs/**/*.md", recursive=True) + glob.glob("crates/*/*must-fail/*.edit") + glob.glob("tests/**/*.edit", recursive=True)
    for f in pages:
        text = open(f).read()
        new = TOKEN.sub(
            lambda m: (
                sorted(names[m.group(0)])[0]
                if m.group(0) in names and len(names[m.group(0)]) == 1 and (f.endswith(".edit") and not m.group(0).isalpha() or re.search(r"[-A-Z]", m.group(0)[1:]) and (f.endswith(".edit") or "`" in text[max(0, m.start() - 80) : m.start()]))
                else m.group(0)
            ),
            text,
        )
        if new != text and "--list" not in sys.argv:
            open(f, "w").write(new)
    print("\n".join(said))
    print("respelled %d names and %d members; %d stay" % (len(done), len(fields), len(said)))
    if "--list" in sys.argv:
        for (module, name), new in sorted(done.items()):
            print("%s.%s\t%s" % (module, name, new))
        for name, new in sorted(fields.items()):
            print("member %s\t%s" % (name, new))


main()
