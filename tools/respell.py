#!/usr/bin/env python3
"""Spells the names of this repository's own definitions and lemmas as Rattle spells its own: words in snake case, types and facts in camel case.

usage: python3 tools/respell.py [--dry]      at the top of the repository, once, after the port script

A name that some text of specs/ or of proofs/ declares and that has a dash is respelled wherever it stands: most-moves is most_moves,
Well-formed is WellFormed. Kept are the names of goals (what an Answers or an Invariants file declares at its margin, and what stands behind
'goal.'), what Rattle makes of a function's text (behind a name that is bound there), what a file imports from a library, strings, and the code
of src/ outside clauses. In comments and in docs only what stands in a header line or between backquotes is respelled.
"""
import collections
import os
import re
import sys

NAME = r"[^\s(){}.;,@\"«»\[\]`]+"
TOKEN = re.compile(rf"(?P<dot>\.?)(?P<name>{NAME})")
FILES = ("Answers.antt", "Invariants.antt", "Choices.antt", "Proof.antt")
DECLARED = re.compile(rf"^( *)(?:(?:pub|abbrev|unfoldable|private) +)*({NAME})(?: +\{{[^{{}}\n]*\}})*(?: +\([^()\n]*\))* *:(?: |$)")
HELD = re.compile(rf"^( *)(?:pub +|abbrev +)*(?:record|data) +({NAME})")
ALIAS = re.compile(rf"\bas ({NAME})")
MODULE = re.compile(rf"\buse Rattle\.(?!std\b|core\b)[\w.+-]+ as ({NAME})")
# Names that would be a library's once respelled.
OTHERWISE = {"bit-and": "bit_of_and", "bit-or": "bit_of_or", "bit-xor": "bit_of_xor"}
LIBRARY = re.compile(r"^ *(?:pub +)?use (?!Rattle\.(?!std\b|core\b)|package)([^{;]*)\.\{([^}]*)\}", re.M)


def texts(root, ends):
    for folder, dirs, files in os.walk(root):
        dirs[:] = sorted(d for d in dirs if d not in ("out", "target", ".git"))
        for f in sorted(files):
            if f.endswith(ends):
                yield os.path.join(folder, f)


def read(path):
    with open(path, encoding="utf-8") as f:
        return f.read()


def respelled(name):
    if name in OTHERWISE:
        return OTHERWISE[name]
    if name[0].isupper():
        parts = name.split("-")
        return parts[0] + "".join(p[0].upper() + p[1:] for p in parts[1:] if p)
    return name.replace("-", "_")


def declared():
    """The names that texts declare, and those of them that are fields or constructors."""
    found, fields = set(), set()
    for path in texts("crates", ".rt"):
        found.update(ALIAS.findall(re.sub(r"//.*", "", read(path))))
    for path in texts("crates", ".antt"):
        made = os.path.basename(path) in FILES
        found.update(ALIAS.findall(re.sub(r"--.*", "", read(path))))
        inside = None
        for line in read(path).splitlines():
            line = re.sub(r"--.*", "", line)
            h = HELD.match(line)
            if h:
                found.add(h[2])
                inside = len(h[1])
                continue
            m = DECLARED.match(line)
            if not m:
                if line.strip() and inside is not None and len(line) - len(line.lstrip()) <= inside:
                    inside = None
                continue
            if inside is not None and len(m[1]) <= inside:
                inside = None
            if made and not m[1]:
                continue
            found.add(m[2])
            if inside is not None:
                fields.add(m[2])
    return found, fields


class Speller:
    def __init__(self):
        found, self.fields = declared()
        self.table = {n: respelled(n) for n in found if "-" in n.strip("-") and re.match(r"[A-Za-z]", n)}
        self.said = []
        self.own, self.modules = {}, set()
        self.behind = collections.Counter()
        new = collections.defaultdict(set)
        for n in found:
            new[self.table.get(n, n)].add(n)
        for n, olds in sorted(new.items()):
            if len(olds) > 1:
                self.said.append(f"fall together: {sorted(olds)} -> {n}")

    def antt(self, text, path, kept=()):
        """Respells antt's text outside comments and strings."""
        made = os.path.basename(path) in FILES
        kept = set(kept)
        for it in LIBRARY.finditer(text):
            kept.update(re.findall(NAME, it[2]))
        if made:
            for line in text.splitlines():
                m = DECLARED.match(line)
                if m and not m[1]:
                    kept.add(m[2])
        kept.update(re.findall(rf"\bgoal\.({NAME})", text))
        self.modules = set(MODULE.findall(text)) - {"goal", "need"}
        own = {}
        if not made:
            for line in text.splitlines():
                code = "" if re.match(r" *(?:pub +)?use ", line) else re.sub(r'"[^"]*"', " ", self.cut(line)[0])
                for m in TOKEN.finditer(code):
                    if not m["dot"] and "-" in m["name"].strip("-") and re.match(r"[A-Za-z]", m["name"]) and m["name"] not in kept:
                        own[m["name"]] = respelled(m["name"])
        self.own = own
        names = {m["name"] for m in TOKEN.finditer(text)}
        for old in sorted(names & set(self.table)):
            if self.table[old] in names and old not in kept:
                self.said.append(f"met: {path}: {old} -> {self.table[old]}")
        out = []
        for line in text.split("\n"):
            code, mark, comment = self.cut(line)
            out.append(self.code(code, path, kept) + mark + self.comment(comment))
        return "\n".join(out)

    def cut(self, line):
        m = re.search(r"(?:^|\s)(--|//[/!]?)(?=\s|$)", line)
        if not m:
            return line, "", ""
        return line[: m.start(1)], m[1], line[m.end(1) :]

    def code(self, code, path, kept):
        parts = re.split(r'("(?:[^"\\]|\\.)*")', code)
        importing = re.match(r"\s*(?:pub +)?(?:ghost +)?use ", code) is not None

        def turn(m):
            name = m["name"]
            if name in kept or name not in self.table and name not in self.own:
                return m[0]
            new = self.table.get(name) or self.own[name]
            if m["dot"] and not importing:
                before = code[: m.start()] if len(parts) == 1 else ""
                path_before = re.search(r"(?:Rattle|package)[\w.+-]*$", before)
                if not path_before and name not in self.fields:
                    head = re.search(rf"({NAME})$", before)
                    if not (head and (re.match(r"[A-Z]\w*$", head[1]) or head[1] in self.modules)):
                        self.behind[(path, name)] += 1
                        return m[0]
            return m["dot"] + new

        return "".join(p if p.startswith('"') else TOKEN.sub(turn, p) for p in parts)

    def comment(self, text):
        m = re.match(r"(   )(\S.*?)(  +\S.*|)$", text)
        if m and not text.startswith("    "):
            head = TOKEN.sub(lambda t: t["dot"] + self.table.get(t["name"], t["name"]), m[2])
            return m[1] + (head.ljust(len(m[2])) if m[3] else head) + m[3]
        return self.quoted(text)

    def quoted(self, text):
        return re.sub(r"`[^`\n]+`", lambda m: TOKEN.sub(lambda t: t["dot"] + self.table.get(t["name"], t["name"]), m[0]), text)

    def rust(self, text, path):
        """Respells the clauses, the ghost items and the ghost imports of Rust's text."""
        self.own, self.modules = {}, set()
        out, at = [], 0
        starts = re.compile(r"ghost use [^;]*;|\b(?:requires|ensures|ghost)\b\*?[^{};=]*?(?:\{|=\s*\{)", re.M)
        kept = set()
        for it in re.finditer(r"ghost use (Rattle\.(?:std|core)\b|lib\.|mathlib\.|Prim\.|native\.|denote\.)[^{;]*\{([^}]*)\}", text):
            kept.update(re.findall(NAME, it[2]))
        clauses = []
        while True:
            m = starts.search(text, at)
            if not m:
                break
            if m[0].startswith("ghost use"):
                end = m.end()
                begin = m.start()
            else:
                begin, depth, end = m.end(), 1, m.end()
                while depth:
                    depth += {"{": 1, "}": -1}.get(text[end], 0)
                    end += 1
            out.append(self.quoted_lines(text[at:begin]))
            piece = text[begin:end]
            clauses.append(piece)
            out.append("\n".join(self.clause(l, path, kept) for l in piece.split("\n")))
            at = end
        out.append(self.quoted_lines(text[at:]))
        code = re.sub(r"//.*", "", "".join(o for i, o in enumerate(out) if i % 2 == 0))
        idents = set(re.findall(r"\b[A-Za-z_]\w*\b", code))
        used = {m["name"] for c in clauses for m in TOKEN.finditer(c)} & set(self.table) - kept
        for old in sorted(used):
            if self.table[old] in idents:
                self.said.append(f"meets Rust: {path}: {old} -> {self.table[old]}")
        return "".join(out)

    def clause(self, line, path, kept):
        code, mark, comment = self.cut(line)
        return self.code(code, path, kept) + mark + self.comment(comment)

    def quoted_lines(self, text):
        return "\n".join(self.quoted(l) if l.lstrip().startswith("//") else l for l in text.split("\n"))


def main(argv):
    it = Speller()
    changed = 0
    for path in texts("crates", (".antt", ".rt")):
        old = read(path)
        new = it.rust(old, path) if path.endswith(".rt") else it.antt(old, path)
        if new != old:
            changed += 1
            if "--dry" not in argv:
                with open(path, "w", encoding="utf-8") as f:
                    f.write(new)
    for path in [*texts("docs", ".md"), "README.md"]:
        if os.path.basename(path).startswith("PORT"):
            continue
        old = read(path)
        new = it.quoted(old)
        if new != old:
            changed += 1
            if "--dry" not in argv:
                with open(path, "w", encoding="utf-8") as f:
                    f.write(new)
    print("\n".join(sorted(set(it.said))))
    for (path, name), n in sorted(it.behind.items()):
        print(f"kept behind a dot: {path}: {name} ({n})")
    print(f"{len(it.table)} names, {changed} files")


if __name__ == "__main__":
    main(sys.argv[1:])
