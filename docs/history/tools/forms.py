#!/usr/bin/env python3
"""Lists the places in crates/*/src that have an older form, where Rattle has a plainer one today.

usage: python3 tools/forms.py [--summary] [--unsaid] [REVISION]

It is run at the top of a checkout, and reads the work tree or, where one is named, a revision. For each point it
prints how many places of each kind there are, and each as crate/src/file.rt:LINE: what. --summary prints the
numbers only. --unsaid prints, of points 1 to 7, only the places with no // comment on the line or within the two
lines above it, where doc comments and attributes are not counted. docs/DESIGN-PASS.md says what the kinds are.
"""

import io
import re
import subprocess
import sys
import tarfile
from collections import Counter, defaultdict
from pathlib import Path

PIECE = re.compile(
    r"""\s+|//[^\n]*
    |(?P<clause>(?:requires|ensures)\s*\w*\s*\{|ghost\s+\w+\s*[:=]\s*\{|ghost\s+use[^;]*;)
    |(?P<literal>b?"(?:[^"\\]|\\.)*"|b?'(?:[^'\\\n]|\\[^\n]+?)'|\d\w*)
    |(?P<life>'\w+)
    |(?P<word>\w+)
    |(?P<mark>=>|->|::|\.\.=?|[=!<>+\-*/%^&|]=|&&|\|\||.)""",
    re.X | re.S,
)
NAME = re.compile(r"[^\W\d][\w.']*|\d+|\S")
KEYWORDS = set("as break const continue else false fn for if impl in let loop match move mut return self true while None Some Ok Err".split())
INTEGER = re.compile(r"[iu](8|16|32|64|128|size)$")
NUMBERS = re.compile(r"\(?-?\d\w*(, -?\d\w*)*\)?$")
VARIANTS = re.compile(r"(?=.*::)([A-Z]\w*|::|[()]| \| )+$")
NOTHING = re.compile(r"None|No[A-Z]|Nothing|Empty|Idle|Absent|Missing")
HANDED_ON = re.compile(r"if let (Err|Some) \( (\w+) \) = [^;{]*\{ return Err \( \2 \)|let (Some|Ok) \( \w+ \) = [^;{]*else \{ return (None|false) ")
# what a function is handed to work with, and not to work on
TOOLS = re.compile(r"&?(mut )?(Global|HostRuntime|impl Abort|impl Allocator|String|W|fmt::Formatter<W>)$")
CONVERSION = re.compile(r"(Try)?From\b")


class File:
    """The tokens of a file without its comments, and where each group ends; a clause of a contract is one token."""

    def __init__(self, path, text):
        self.name, self.crate, self.source = path.removeprefix("crates/"), path.split("/")[1], text
        self.lines = text.split("\n")
        self.tests = re.split(r"#\[cfg\(test\)\]\s*mod \w+ \{", text)[0].count("\n") + 1
        tokens, opened, end, self.close = [("", "start", 1, 0, 0)], [], 0, {}
        while end < len(text):
            m = PIECE.match(text, end)
            end, kind, word = m.end(), m.lastgroup, m.group()
            if kind == "clause" and word.endswith("{"):
                depth = 1
                while depth:
                    depth += {"{": 1, "}": -1}.get(text[end], 0)
                    end += 1
                word = text[m.end():end - 1]
            if kind == "mark" and word in "([{":
                opened.append(len(tokens))
            elif kind == "mark" and word in ")]}":
                self.close[opened.pop()] = len(tokens)
            if kind:
                tokens.append((word, kind, text.count("\n", 0, m.start()) + 1, m.start(), end))
        self.words, self.kinds, self.at, self.begin, self.end = map(list, zip(*tokens))

    def text(self, start, end):
        """Tokens as they stand in the source, in one line and without lifetimes."""
        source = self.source[self.begin[start]:self.end[end - 1]] if start < end else ""
        text = " ".join(re.sub(r"//[^\n]*|<'\w+>|'(?!static)\w+\b(?!')(, | )?", "", source).split())
        return re.sub(r"(?<=[(\[]) |,? (?=[)\]])| (?=\.\w)", "", text)

    def skip(self, i):
        """The place after this token, or after the group that it opens."""
        return self.close.get(i, i) + 1

    def upto(self, i, *marks):
        """The place of the first of these tokens outside of groups."""
        while i < len(self.words) and self.words[i] not in marks:
            i = self.skip(i)
        return i

    def angles(self, i):
        """The place after the angle brackets that open here, if they do."""
        depth = int(self.words[i] == "<")
        while depth:
            i = self.skip(i)
            depth += {"<": 1, ">": -1}.get(self.words[i], 0)
        return i + (self.words[i] == ">")

    def split(self, start, end, mark, types=False):
        """The parts between marks; marks in the angle brackets of types do not count."""
        parts, depth, begin = [], 0, start
        while start < end:
            if self.words[start] in ("<", ">") and (types or depth or self.words[start - 1] == "::"):
                depth += 1 if self.words[start] == "<" else -1
            if self.words[start] == mark and depth <= 0:
                parts.append((begin, start))
                begin = start + 1
            start = self.skip(start)
        return [(a, b) for a, b in parts + [(begin, end)] if a < b]

    def matches(self, start, end):
        """Each match: its place, that of its brace, and its arms as (pattern, body); no arms where one has a guard."""
        for i in range(start, end):
            if self.words[i] == "match" and self.kinds[i] == "word":
                brace = self.upto(i + 1, "{")
                arms, j = [], brace + 1
                while j < self.close[brace]:
                    a = self.upto(j, "=>") + 1
                    after = self.skip(a) if self.words[a] == "{" else min(self.upto(a, ","), self.close[brace])
                    block = self.words[a] == "{" and self.upto(a + 1, ";") > after
                    arms.append((self.text(j, a - 1), self.text(a + block, after - block)))
                    j = after + (self.words[after] == ",")
                yield i, brace, [] if any(" if " in pattern for pattern, _ in arms) else arms

    def loops(self, start, end):
        """Each loop: its place, its head, its body."""
        for i in range(start, end):
            if self.words[i] in ("for", "while", "loop") and self.words[i + 1] != "<":
                brace = self.upto(i + 1, "{")
                yield i, self.text(i, brace), (brace + 1, self.close[brace])

    def said(self, line):
        """Whether a comment stands on a line or above it."""
        above = [l for l in self.lines[:line - 1] if not re.match(r"\s*(///|#\[)", l)][-2:]
        return any(re.search(r"(^|\s)//(?![/!])", re.sub(r'"(\\.|[^"\\])*"', "", l)) for l in above + self.lines[line - 1:line])


class Item:
    """A function, a type, a constant, or an impl or a trait; `block` is the impl or the trait around it."""

    def __init__(self, file, i, block):
        self.file, self.kind, self.name, self.line = file, file.words[i], file.words[i + 1], file.at[i]
        self.owner, self.trait = block
        first = self.line - 1
        while file.lines[first - 1].strip().startswith(("//", "#[")):
            first -= 1
        above = [l.strip() for l in file.lines[first:self.line - 1]]
        self.docs = " ".join(l[3:].strip() for l in above if l.startswith("///"))
        self.attributes = " ".join(l for l in above if l.startswith("#["))
        self.public = file.lines[self.line - 1].strip().startswith("pub ")
        self.test = "#[test]" in self.attributes or self.line > file.tests

    def __str__(self):
        return f"{self.kind} " + f"{self.owner}::" * bool(self.owner) + self.name

    def function(self, file, i):
        opened = file.angles(i + 2)
        end = file.upto(opened, "{", ";")
        takes = [(file.upto(a, ":"), b) for a, b in file.split(opened + 1, file.close[opened], ",", True)]
        self.takes = [(file.words[a - 1].lstrip("_"), file.text(a + 1, b)) for a, b in takes if a < b]
        self.me = len(self.takes) < len(takes)
        self.clauses = [file.words[j] for j in range(opened, end) if file.kinds[j] == "clause"]
        arrow = file.upto(opened, "->", "{", ";") + 1
        last = next((j for j in range(arrow, end) if file.kinds[j] == "clause" or file.words[j] == "where"), end)
        self.back = file.text(arrow, last)
        self.body = (end + 1, file.close[end]) if file.words[end] == "{" else None

    def type(self, file, i):
        """The fields of a struct as (name, type, line), the variants of an enum as (name, types, line)."""
        brace, self.fields = file.angles(i + 2), []
        for a, b in file.split(brace + 1, file.close.get(brace, brace), ",", True):
            m = re.match(r"(?:#\[[^]]*\] ?)*(?:pub(?:\(\w+\))? )?(\w+)(?:: (.+))?", file.text(a, b))
            group = file.upto(a, "(", "{")
            if self.kind == "enum":
                types = file.split(group + 1, file.close[group], ",", True) if group < b else ()
                self.fields.append((m[1], tuple(file.text(*p) for p in types), file.at[a]))
            elif m and m[2]:
                self.fields.append((m[1], m[2], file.at[a]))


def items(file):
    words, blocks = file.words, [(0, len(file.words), ("", ""))]
    for i in (i for i, kind in enumerate(file.kinds) if kind == "word"):
        item = Item(file, i, next(block for a, b, block in reversed(blocks) if a <= i < b))
        if item.kind == "fn" and file.kinds[i + 1] == "word":
            item.function(file, i)
        elif item.kind in ("struct", "enum"):
            item.type(file, i)
        elif item.kind in ("const", "static") and words[i + 2] == ":":
            item.value = file.text(i + 3, file.upto(i, ";"))
        elif item.kind in ("impl", "trait") and (words[i - 1] in ("", "}", ";", "]", "{", "pub", ")") or file.kinds[i - 1] == "clause"):
            brace, begin = file.upto(i, "{"), file.angles(i + 1)
            by = words.index("for", begin, brace) if "for" in words[begin:brace] else begin - 1
            item.name, item.trait, item.body = file.text(by + 1, brace), file.text(begin, by), (brace + 1, file.close[brace])
            blocks.append((*item.body, (item.name, item.trait)))
        else:
            continue
        yield item


class Source:
    """All that is read of a revision, or of the work tree."""

    def __init__(self, revision):
        if revision:
            archive = subprocess.check_output(["git", "archive", "--format=tar", revision, "crates"])
            with tarfile.open(fileobj=io.BytesIO(archive)) as tar:
                self.texts = {m.name: tar.extractfile(m).read().decode() for m in tar if m.name.endswith((".rt", ".antt"))}
        else:
            found = [*Path("crates").glob("*/src/**/*.rt"), *Path("crates").glob("*/proofs/**/*.antt")]
            self.texts = {str(p): p.read_text(encoding="utf-8") for p in found}
        files = [File(p, t) for p, t in sorted(self.texts.items()) if re.match(r"crates/[^/]+/src/.*\.rt$", p)]
        tests = {f.name.rsplit("/", 1)[0] + "/" + m for f in files for m in re.findall(r"#\[cfg\(test\)\]\s*mod (\w+);", f.source)}
        self.items = [i for f in files for i in items(f)]
        for i in self.items:
            i.test = i.test or any(i.file.name.startswith((t + ".rt", t + "/")) for t in tests)
        self.fns = [i for i in self.items if i.kind == "fn"]
        self.written = [f for f in self.fns if f.body]
        self.enums = [i for i in self.items if i.kind == "enum"]
        self.errors = {f.text(*p) for f in files for i, w in enumerate(f.words) if w == "Result" and f.words[i + 1] == "<"
                       for p in f.split(i + 2, f.angles(i + 1) - 1, ",", True)[1:]}


def whole(f):
    """The arms of the match that is all of a function's body."""
    i, brace, arms = next(f.file.matches(*f.body), (0, 0, []))
    return arms if i == f.body[0] and f.file.skip(brace) == f.body[1] else []


def rebuilt(arms):
    """The arm, if there is one, that does what a method or `?` does."""
    names = [re.sub(r"\(([a-z_]\w*|\(\))\)", "", pattern) for pattern, _ in arms]
    two = set(names) in ({"Some", "None"}, {"Ok", "Err"}, {"Some", "_"}, {"Ok", "_"}, {"Err", "_"})
    truth = len(arms) > 1 and all(body in ("true", "false") for _, body in arms)
    wrapped = two and all(body.split("(")[0] == name for (_, body), name in zip(arms, names))
    for (pattern, body), name in sorted(zip(arms, names), key=lambda arm: len(arm[0][1])):
        same = name in ("None", "Some", "Ok", "Err") and re.sub(r"^(\{ )?return |;( \})?$", "", body) == pattern
        other = two and name in ("None", "_", "Err") and (NUMBERS.match(body) or body in ("true", "false", "None") or name + body[:4] == "NoneErr(")
        if truth or wrapped or same or other:
            return f"{pattern} => {body}"


def point1(source):
    """own enums, flags, numbers for kinds, rebuilt methods"""
    for t in source.enums:
        held = [types for _, types, _ in t.fields]
        sizes = sorted(len(types) for types in held)
        one = len(held) in (2, 3) and sizes[-1] == 1 and sizes[-2] == 0
        alike = sizes == [1, 1] and (held[0] == held[1] or {types[0] for types in held} & source.errors)
        none = len(held) == 2 and (sizes[0] < 1 <= sizes[1] or any(NOTHING.match(n) for n, _, _ in t.fields))
        if (one or alike or none) and t.name not in source.errors:
            yield "own enums", t, t.line, f"{t}: " + ", ".join(n + "(..)" * bool(types) for n, types, _ in t.fields)
    for f in source.fns:
        if re.search(r"\bbool\b", f.back) and re.search(r"\bfalse (where|if)\b", f.docs):
            yield "flags", f, f.line, f"{f}: {f.docs[f.docs.index('false'):]}"
    for t in (i for i in source.items if i.kind == "struct"):
        flags = "|".join(n for n, of, _ in t.fields if of == "bool")
        for n, of, line in t.fields:
            only = re.search(rf"///.*\b(where|if|while|once|{flags})\b", t.file.lines[line - 2])
            if flags and only and (of.startswith("Option") or INTEGER.match(of)):
                yield "flags", t, t.line, f"{t}: {n}, which {flags} may leave without a meaning"
    for f in source.written:
        file, arms = f.file, whole(f)
        if len(arms) > 1 and not CONVERSION.match(f.trait):
            to = all(VARIANTS.match(p) or p == "_" for p, _ in arms) and all(NUMBERS.match(b) for _, b in arms)
            back = all(NUMBERS.match(p) or p == "_" for p, _ in arms) and any(VARIANTS.match(b) for _, b in arms)
            if to or back:
                yield "numbers for kinds", f, f.line, f"{f}: {arms[0][0]} => {arms[0][1]} .."
        for i, brace, arms in file.matches(*f.body):
            if what := rebuilt(arms):
                yield "rebuilt methods", f, file.at[i], f"{f}: {file.text(i, brace)}: {what}"
        for i in range(*f.body):
            if HANDED_ON.match(" ".join(file.words[i:i + 40])):
                yield "rebuilt methods", f, file.at[i], f"{f}: {file.text(i, file.skip(file.upto(i, '{')))}"


def forwards(f):
    """Whether it is a match on self where each arm calls the same method on what the variant holds."""
    called = [re.match(r"(\w+)\.(\w+)\(", body) for _, body in whole(f)]
    held = all(m and re.search(rf"\b{m[1]}\b", pattern) for m, (pattern, _) in zip(called, whole(f)))
    return held and len(called) > 1 and len({m[2] for m in called}) == 1 and "self" in f.file.words[f.body[0]:f.body[0] + 4]


def tokens(t):
    """The tokens of a body and its contract, and the same with placeholders."""
    real, form = [], []
    body = zip(t.file.words[slice(*t.body)], t.file.kinds[slice(*t.body)])
    for word, kind in [*body, *((clause, "clause") for clause in getattr(t, "clauses", []))]:
        for w in NAME.findall(word) if kind == "clause" else [word]:
            real.append(w)
            form.append("literal" if kind == "literal" or w.isdigit() else "name" if re.match(r"'?[^\W\d]", w) and w not in KEYWORDS else w)
    return real, form


def point2(source):
    """twins"""
    known = defaultdict(list)
    for t in source.items:
        if t.test or t.kind == "trait" or t.kind == "fn" and (not t.body or forwards(t) or CONVERSION.match(t.trait)):
            continue
        real, enough = [], True
        if t.kind in ("fn", "impl"):
            real, form = tokens(t)
            steps, within = real.count(";") + real.count("=>") + 1, real.count("fn")
            # an impl of one function is found by its function
            key, enough = (t.kind, *form), within > 1 if t.kind == "impl" else steps > 2
        elif t.kind in ("const", "static"):
            key = t.kind, t.name, t.value
        else:
            key, enough = (t.kind, frozenset((n, of) for n, of, _ in t.fields)), len(t.fields) > 1
        for u, other in known[key] if enough else ():
            if sum(map(str.__eq__, real, other)) >= 0.6 * len(real):
                yield t.kind, t, t.line, f"{t}: as {u} ({u.file.name}:{u.line})"
                break
        known[key].append((t, real))


def advanced(words, by=r"\S+"):
    """The variables to which these tokens add something, or from which they take it."""
    text = " " + " ".join(words) + " "
    return {m[0] or m[1] for m in re.findall(rf"(?<! \.) (?:(\w+) (?:\+=|-=) {by} ;|(\w+) = \2 (?:[+-]|\. \w+_(?:add|sub) \() {by} )", text)}


def rows(file, start, end):
    """Three calls or more beside one another that differ only in a number that goes up by one."""
    for i in range(start - 1, end):
        row = []
        parts = [p for part in file.split(i + 1, file.close.get(i, i), ";") for p in file.split(*part, ",")]
        for a, b in parts + [(i, i)]:
            words = [w for w in file.words[a:b] if not INTEGER.match(w)]
            form, found = re.sub(r"\d+", "0", " ".join(words)), [int(n) for n in re.findall(r"\d+", " ".join(words))]
            if row and form == row[-1][0] and any(n == m + 1 for n, m in zip(found, row[-1][1])):
                row.append((form, found, a, b))
                continue
            if len(row) > 2 and re.search(r"\b[a-z_]\w* [(\[]", row[0][0]):
                yield file.at[row[0][2]], f"{len(row)} in a row from {file.text(*row[0][2:])} on"
            row = [(form, found, a, b)]


def point3(source):
    """loops that count by hand"""
    for f in source.written:
        file = f.file
        for i, head, (a, b) in file.loops(*f.body):
            body = file.words[a:b]
            if file.words[i] == "for":
                for name in sorted(advanced(body, r"\d\w*")):
                    if not re.search(rf"\blet (mut )?{name}\b", " ".join(body)):
                        yield "counters beside a for", f, file.at[i], f"{f}: {head}, beside {name}"
            else:
                asked = head if head != "loop" else " ".join(file.text(j, file.upto(j, "{")) for j in range(a, b) if file.words[j] == "if")
                for name in sorted(advanced(body) & set(re.findall(r"\w+", asked))):
                    yield "while and loop", f, file.at[i], f"{f}: {head}, which advances {name}"
            *lets, last = file.split(a, b, ";") or [(a, a)]
            if all(file.words[c] == "let" for c, _ in lets) and re.match(r"(\w+\.)+(push|push_str|insert|extend)\(.*\)\??$", file.text(*last)):
                yield "only a push", f, file.at[i], f"{f}: {head} .. {file.text(*last)}"
        for line, what in rows(file, *f.body):
            yield "runs", f, line, f"{f}: {what}"


def bare(kind):
    """A type without references, and without the Option or Result around it."""
    return re.match(r"(?:&|mut |Option<|Result<|\()*(\w*)", kind)[1]


def point4(source):
    """equality, order, conversion and printing by hand"""
    enums, traits = {t.name for t in source.enums}, {t.name.split(":")[0] for t in source.items if t.kind == "trait"}
    for f in source.fns:
        text = " ".join(f.file.words[slice(*f.body)]) if f.body else '"'
        values = [f.owner] * f.me + [of for _, of in f.takes if not TOOLS.match(of)]
        of, back = bare(values[0]) if len(values) == 1 and "[" not in values[0] else "", bare(f.back)
        made = '"' in text and re.match(r"&'static str|String|Result<String", f.back) and of not in ("", "str", "String", "Vec")
        if made and f.trait not in traits and not f.test:
            yield "text of one value", f, f.line, f"{f}: {of} as {f.back}"
        if {of, back} <= enums and of != back and f.body and whole(f) and not CONVERSION.match(f.trait):
            yield "enum to enum", f, f.line, f"{f}: {of} to {f.back}"
        m = re.match(r"(?:[&*] )?([a-z]\w*)(?: \. \w+)* (?:[=!<>]=|[<>]) (?:[&*] )?([a-z]\w*)(?: \. \w+)*$", text)
        if m and m[1] != m[2] and not f.trait or re.match(r"(Partial)?(Eq|Ord)\b", f.trait):
            yield "equality and order", f, f.line, f"{f}: {f.file.text(*f.body)}"
        if re.search(r"b?'[0aA]' [+-]|[+-] b?'[0aA]'", text) or re.search(r"/ 1[06]\b", text) and re.search(r"% 1[06]\b", text):
            yield "digits", f, f.line, str(f)
    for t in source.enums:
        if t.public and not t.test and "PartialEq" not in t.attributes:
            yield "enums without PartialEq", t, t.line, str(t)


def point5(source):
    """facts and parameters"""
    facts, groups = defaultdict(dict), defaultdict(dict)
    ours = [f for f in source.fns if not f.test and not (f.trait and f.body)]
    for i, f in enumerate(ours):
        names = {n for n, _ in f.takes} | {"self", "result"}
        for fact in (" ".join(p.split()) for clause in f.clauses for p in re.split(r"\)\s*×\s*\(", clause)):
            seen = {}
            form = re.sub(r"(?<![.\w])[^\W\d]\w*", lambda m: seen.setdefault(m[0], f"v{len(seen)}") if m[0] in names else m[0], fact)
            facts[f.file.crate, re.sub(r"[()]", "", form)].setdefault(f, fact)
        mine = {p for p in f.takes if not TOOLS.match(p[1])}
        for g in ours[i + 1:]:
            common = frozenset(mine & set(g.takes))
            if len(common) > 1 and g.file.crate == f.file.crate:
                groups[f.file.crate, common] |= {f: 0, g: 0}
    for users in facts.values():
        if len(users) > 2:
            f, fact = next(iter(users.items()))
            lone = fact.count("(") - fact.count(")")
            yield "facts", f, f.line, f"{fact[max(lone, 0):len(fact) + min(lone, 0)]}: in {', '.join(u.name for u in users)}"
    for (crate, group), users in groups.items():
        more = any(c == crate and group < other and users.keys() <= them.keys() for (c, other), them in groups.items())
        if len(users) > 2 and not more:
            f = next(iter(users))
            together = ", ".join(f"{n}: {of}" for n, of in f.takes if (n, of) in group)
            yield "parameters", f, f.line, f"{together}: in {', '.join(u.name for u in users)}"


def point6(source):
    """buffers with a length beside them, searches by hand"""
    for t in (i for i in source.items if i.kind == "struct"):
        held = [n for n, of, _ in t.fields if re.match(r"(&(mut )?)?\[|(Array)?Vec<", of)]
        numbers = [(n, n + t.file.lines[line - 2]) for n, of, line in t.fields if INTEGER.match(of)]
        counts = [n for n, said in numbers if re.search(r"count|len|filled|size|used|/// (How many|The number of)", said)]
        if held and counts:
            yield "buffers", t, t.line, f"{t}: {counts[0]} beside {held[0]}"
    for f in source.written:
        for i, head, body in f.file.loops(*f.body):
            if "return Some" in f.file.text(*body):
                yield "searches", f, f.file.at[i], f"{f}: {head} .. return Some"


def point7(source):
    """switches and tables of functions"""
    owners = defaultdict(list)
    for f in source.written:
        if forwards(f):
            owners[f.file.crate, f.owner.split("<")[0]].append(f)
    for owner, fns in owners.items():
        t = next((t for t in source.enums if (t.file.crate, t.name) == owner), fns[0])
        yield "forwarding", t, t.line, f"{t}: {', '.join(f.name for f in fns)} of what each variant holds"
    for t in source.items:
        if t.kind in ("const", "static") and re.match(r"&?\[&?(dyn )?(fn|Fn)\b", t.value):
            yield "tables of functions", t, t.line, str(t)


def proofs(source, summary):
    counts = defaultdict(Counter)
    for path, text in sorted(source.texts.items()):
        if m := re.match(r"crates/([^/]+)/proofs/(?:.*/)?(\w+)\.antt$", path):
            kind = {"Answers": "answer", "Invariants": "answer", "Choices": "answer", "Lib": "list"}.get(m[2], "lemma")
            for name in (m[1], "8. proofs"):
                counts[name].update({"files": 1, kind: 1, "lines": text.count("\n"), kind + " lines": text.count("\n")})
    for name, c in sorted(counts.items()):
        if name == "8. proofs" or not summary:
            kinds = f"{c['answer']} answer files of {c['answer lines']}, {c['lemma']} lemma files of {c['lemma lines']}"
            print(f"{name}: {c['files']} files, {c['lines']} lines: {kinds}")


def main(arguments):
    options = {"--summary", "--unsaid"} & set(arguments)
    rest = [a for a in arguments if a not in options]
    if len(rest) > 1 or "".join(rest).startswith("-"):
        raise SystemExit(__doc__)
    source = Source(rest[0] if rest else None)
    for n, point in enumerate((point1, point2, point3, point4, point5, point6, point7), 1):
        found = {(kind, t.file.name, line, what + " (test)" * t.test) for kind, t, line, what in point(source)
                 if "--unsaid" not in options or not t.file.said(line)}
        kinds = Counter(kind for kind, *_ in sorted(found))
        print(f"{n}. {point.__doc__}: {len(found)}" + (" (" + ", ".join(f"{k} {c}" for k, c in kinds.items()) + ")" if found else ""))
        for kind in kinds if "--summary" not in options else ():
            print(f"  {kind}:")
            for _, name, line, what in sorted(p for p in found if p[0] == kind):
                print(f"{name}:{line}: {what}")
    if "--unsaid" not in options:
        proofs(source, "--summary" in options)


if __name__ == "__main__":
    main(sys.argv[1:])
