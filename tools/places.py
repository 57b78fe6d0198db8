#!/usr/bin/env python3
"""Lists the places in crates/*/src that the points of docs/DESIGN-PASS.md speak of.

usage: python3 tools/places.py [POINT] [--count]     at the top of a checkout; POINT is 1 to 8, else all

It goes by the text of the source, comments and strings taken out. A place is a file, a line and a name. `--count` prints the number of
places of each kind alone. tests/ and must-fail edits are not read."""
import collections
import glob
import re
import sys

WORD = re.compile(r"[A-Za-z_][A-Za-z_0-9]*|\d[\dA-Fa-fx_]*|'[a-z_]+\b|[^\sA-Za-z_0-9]")
FUNCTION = re.compile(r"^(\s*)(?:pub )?(?:unsafe )?(?:extern \"C\" )?fn (\w+)", re.M)


def bare(text):
    """The text with comments and strings blanked, each line where it was."""
    out, i = [], 0
    while i < len(text):
        if text.startswith("//", i):
            j = text.find("\n", i)
            j = len(text) if j < 0 else j
            out.append(" " * (j - i))
            i = j
        elif text[i] == '"':
            j = i + 1
            while text[j] != '"':
                j += 2 if text[j] == "\\" else 1
            out.append('"' + re.sub(r"[^\n]", " ", text[i + 1:j]) + '"')
            i = j + 1
        elif text.startswith("b'", i) and re.match(r"b'(\\.|[^\\])'", text[i:i + 5]):
            n = len(re.match(r"b'(\\.|[^\\])'", text[i:i + 5]).group(0))
            out.append("0" + " " * (n - 1))
            i += n
        else:
            out.append(text[i])
            i += 1
    return "".join(out)


def close(text, at):
    """The index past the brace that closes the one at `at`."""
    depth = 0
    for i in range(at, len(text)):
        depth += {"{": 1, "}": -1}.get(text[i], 0)
        if depth == 0:
            return i + 1
    return len(text)


class Function:
    """A function: where it stands, its parameters, its clauses, its body."""

    def __init__(self, path, text, match):
        self.path, self.name = path, match.group(2)
        self.line = text.count("\n", 0, match.start(2)) + 1
        at = text.index("(", match.end())
        depth, i = 0, at
        while True:
            depth += {"(": 1, ")": -1}.get(text[i], 0)
            i += 1
            if depth == 0:
                break
        inner = re.sub(r"<[^<>]*>", "", " ".join(text[at + 1:i - 1].split()))
        self.parameters = [p.strip() for p in inner.split(",") if p.strip()]
        self.answer = " ".join(text[i:].split("{", 1)[0].split("requires")[0].split("ensures")[0].split())
        self.clauses = []
        while True:
            head = re.match(r"\s*(?:->[^{]*?)?\s*(?:where[^{]*?)?(requires|ensures)\*?\s*(\w*)\s*\{", text[i:])
            if not head:
                break
            start = i + head.end() - 1
            end = close(text, start)
            self.clauses.append((head.group(1), " ".join(text[start + 1:end - 1].split())))
            i = end
        start = text.index("{", i)
        self.body = text[start:close(text, start)]
        self.at = start


def functions(path, text):
    return [Function(path, text, m) for m in FUNCTION.finditer(text)]


def shape(body):
    """The tokens of a body, with every name that is no keyword, and every number, made one."""
    keep = {"if", "else", "while", "for", "in", "match", "let", "mut", "return", "loop", "break", "continue", "as", "true", "false"}
    names = {}
    out = []
    for t in WORD.findall(body):
        if t in keep or not re.match(r"[A-Za-z_0-9']", t):
            out.append(t)
        elif t[0].isdigit():
            out.append("0")
        else:
            out.append(names.setdefault(t, f"n{len(names)}"))
    return tuple(out)


def main():
    point = next((a for a in sys.argv[1:] if a.isdigit()), None)
    count = "--count" in sys.argv
    files = {p: bare(open(p).read()) for p in sorted(glob.glob("crates/*/src/**/*.rt", recursive=True))}
    every = [f for p, t in files.items() for f in functions(p, t)]
    found = collections.OrderedDict()
    records = collections.defaultdict(list)

    def put(where, kind, path, line, name):
        found.setdefault((where, kind), []).append(f"{path}:{line} {name}")

    for path, text in files.items():
        for m in re.finditer(r"\benum (\w+)[^{]*\{", text):
            body = text[m.end():close(text, m.end() - 1) - 1]
            variants, depth, word = [], 0, ""
            for ch in body:
                depth += {"(": 1, "{": 1, ")": -1, "}": -1}.get(ch, 0)
                if ch == "," and depth == 0:
                    variants.append(word.strip())
                    word = ""
                else:
                    word += ch
            variants = [v for v in variants + [word.strip()] if v]
            line = text.count("\n", 0, m.start()) + 1
            plain = [v for v in variants if re.fullmatch(r"\w+", v)]
            if len(variants) == 2 and len(plain) == 1:
                put(1, "own enums of the shape of Option", path, line, m.group(1))
            elif any(re.match(r"(Refused|Bad|Not|Undefined)\b.*\(", v) or v in ("BadIndicator", "Unread") for v in variants):
                put(1, "own enums of the shape of Result", path, line, m.group(1))
            elif any(v in ("Nothing", "Never", "No", "Absent", "Unknown") for v in plain) and len(plain) < len(variants):
                put(1, "enums with a case for none beside others", path, line, m.group(1))
        for m in re.finditer(r"\bstruct (\w+)[^{;(]*\{", text):
            body = text[m.end():close(text, m.end() - 1) - 1]
            line = text.count("\n", 0, m.start()) + 1
            fields = re.findall(r"(\w+)\s*:\s*([^,]+?)\s*(?:,|$)", re.sub(r"\[([^\]]*)\]", lambda a: a.group(0).replace(";", "x").replace(",", "x"), body))
            names = [f[0] for f in fields]
            kinds = dict(fields)
            if kinds.get("refusal") == "u8":
                put(1, "refusals as numbers in a field", path, line, m.group(1))
            for flag, value in (("linked", "link"), ("present", "link"), ("dated", "deadline"), ("stands", "at")):
                if kinds.get(flag) == "bool" and value in kinds:
                    put(1, "a flag with a value beside it", path, line, f"{m.group(1)}.{flag}")
            if len(fields) >= 2:
                records[tuple(names)].append((path, line, m.group(1)))
            if any(n in ("count", "len") for n in names) and "[" in body:
                put(6, "a buffer with a length beside it", path, line, m.group(1))
        for m in re.finditer(r"\bconst (NO_\w+|NONE|TOO_MANY)\b", text):
            put(1, "numbers that stand for none", path, text.count("\n", 0, m.start()) + 1, m.group(1))
        for m in re.finditer(r"\bconst ([A-Z_0-9]+): u8 = ", text):
            if "refusal" in path:
                put(1, "refusals as constants", path, text.count("\n", 0, m.start()) + 1, m.group(1))
            elif "kinds" in path or "indicator" in path or "boundary" in path:
                put(1, "kinds as constants", path, text.count("\n", 0, m.start()) + 1, m.group(1))

    bodies = collections.defaultdict(list)
    travel = collections.defaultdict(list)
    facts = collections.defaultdict(list)
    for f in every:
        if f.answer == "-> u8" and ("refusal::" in f.body or "refusal" in f.name):
            put(1, "functions that answer a refusal's number", f.path, f.line, f.name)
        tokens = shape(f.body)
        if len(tokens) >= 30:
            bodies[tokens].append(f)
        for n in re.finditer(r"\bwhile\b|\bloop\b", f.body):
            line = files[f.path].count("\n", 0, f.at + n.start()) + 1
            head = f.body[n.start():f.body.index("{", n.start())]
            inner = f.body[f.body.index("{", n.start()):close(f.body, f.body.index("{", n.start()))]
            names = set(re.findall(r"[a-z_]\w*", head)) - {"while", "loop", "len"}
            step = [x for x in names if re.search(r"\b%s \+= 1;|\b%s = %s [+-] 1;" % (x, x, x), inner)]
            put(3, "loops that count an index by one" if step else "other loops by while or loop", f.path, line, f.name)
        if re.fullmatch(r"equals|same\w*|is_same\w*", f.name):
            put(4, "equality by hand", f.path, f.line, f.name)
        if re.fullmatch(r"wide|bit|lo|hi|narrow|from_u16|from_u32|from_u8|\w+_number|status_code|flag_number", f.name):
            put(4, "conversions by hand", f.path, f.line, f.name)
        real = [p for p in f.parameters if ":" in p]
        for k in range(len(real) - 2):
            travel[tuple(sorted(real[k:k + 3]))].append(f)
        for kind, text in f.clauses:
            if kind == "requires":
                for part in re.split(r" × ", text):
                    facts[part.strip("() ")].append(f)
        if re.search(r"\bmatch (\w+\.)?(kind|phase|opcode|tag|code)\b", f.body) and f.body.count("=>") >= 4:
            put(7, "switches on a number or kind that call a step for each", f.path, f.line, f.name)
    for same in records.values():
        if len(same) > 1:
            for path, line, name in same:
                put(2, "structs with the same fields", path, line, name)
    for same in bodies.values():
        if len(same) > 1:
            for f in same:
                put(2, "functions whose bodies differ in names and numbers alone", f.path, f.line, f.name)
    for three, fs in travel.items():
        if len(fs) >= 3:
            put(5, "three parameters that travel together through three functions or more", fs[0].path, fs[0].line, " ".join(three) + f" ({len(fs)})")
    for fact, fs in facts.items():
        if len(fs) >= 3 and fact:
            put(5, "facts that three functions or more ask for", fs[0].path, fs[0].line, f"{fact} ({len(fs)})")
    answers = collections.Counter()
    for p in glob.glob("crates/*/proofs/**/Answers.antt", recursive=True):
        for m in re.finditer(r"^pub (\w[\w-]*)\s*:.*\n(?:--.*\n)*\1 (.*)$", open(p).read(), re.M):
            answers[m.group(2)] += 1
    for text, n in answers.items():
        if n >= 3:
            put(8, "answers of one text, three or more", "crates/*/proofs", n, text[:90])

    for (where, kind), places in sorted(found.items()):
        if point and int(point) != where:
            continue
        print(f"{where}  {kind}: {len(places)}")
        if not count:
            for p in places:
                print("     " + p)


main()
