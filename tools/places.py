#!/usr/bin/env python3
"""Prints the places of docs/DESIGN-PASS.md: for each point the rules, the places that they find, and the counts.

usage: tools/places.py [--short] [--left] [--root FOLDER] [POINT ..]     points 1 to 8, all where none is given

A place is a file, a line and a name. --short prints a line for each file, with the names, in place of a line for each
place. It reads crates/*/src and, for point 8, crates/*/proofs, and holds no counts: a rule says what it looks for.
The table 'Kept, with the reason' of docs/DESIGN-PASS.md says which places stay, and why: of each point it is said how
many are kept and how many are left, and --left prints these alone. A row of that table whose place is no longer found
is named at the end.
"""

import collections
import glob
import os
import re
import sys

POINTS = range(1, 9)


# ---- reading the sources

Fn = collections.namedtuple("Fn", "file line name params ret clauses body bodyline said")
Item = collections.namedtuple("Item", "file line kind name derives parts said")


def blank(text):
    """The text without comments and string contents, each byte in its place."""
    out, i = list(text), 0
    while i < len(text):
        if text.startswith("//", i):
            while i < len(text) and text[i] != "\n":
                out[i] = " "
                i += 1
        elif text[i] == '"':
            i += 1
            while text[i] != '"':
                step = 2 if text[i] == "\\" else 1
                for j in range(i, i + step):
                    out[j] = " "
                i += step
            i += 1
        else:
            i += 1
    return "".join(out)


def closing(text, at):
    """Where the bracket that opens at `at` closes."""
    depth, pairs = 0, {"(": ")", "{": "}", "[": "]"}
    opens, shuts = text[at], pairs[text[at]]
    for i in range(at, len(text)):
        if text[i] == opens:
            depth += 1
        elif text[i] == shuts:
            depth -= 1
            if depth == 0:
                return i
    return len(text) - 1


def generics_end(text, at):
    """Where the type parameters after a function's name end."""
    if text[at : at + 1] != "<":
        return at
    depth = 0
    for i in range(at, len(text)):
        if text[i] == "<":
            depth += 1
        elif text[i] == ">" and text[i - 1] not in "-=":
            depth -= 1
            if depth == 0:
                return i + 1
    return at


def split(text, mark):
    """The parts of a text between marks that stand in no bracket."""
    parts, depth, last, i = [], 0, 0, 0
    while i < len(text):
        if text[i] in "([{":
            depth += 1
        elif text[i] in ")]}":
            depth -= 1
        elif depth == 0 and text.startswith(mark, i):
            parts.append(text[last:i])
            last = i + len(mark)
        i += 1
    parts.append(text[last:])
    return [p.strip() for p in parts if p.strip()]


def said_before(text, at):
    """The comment lines that stand right above."""
    lines = text[:at].split("\n")[:-1]
    found = []
    while lines and re.match(r"\s*(//|#\[)", lines[-1]):
        found.insert(0, lines.pop().strip())
    return " ".join(line.lstrip("/ ") for line in found)


CLAUSE = re.compile(r"\s*(requires|ensures|decreases|ghost|exits|aborts|waits)\b\s*(\w+)?\s*:?\s*\{")
RETURN = re.compile(
    r"\s*->\s*(.*?)\s*(?=\b(?:requires|ensures|decreases|ghost|exits|aborts|waits|where)\b|\{|;[ \t]*\n)", re.S
)
WHERE = re.compile(r"\s*where\b[^{;]*?(?=\b(?:requires|ensures|decreases|exits|aborts|waits)\b|\{|;)", re.S)


def read(root):
    fns, items = [], []
    for path in sorted(glob.glob(os.path.join(root, "crates", "*", "src", "**", "*.rt"), recursive=True)):
        file = os.path.relpath(path, os.path.join(root, "crates")).replace("/src/", "/")
        text = open(path, encoding="utf-8").read()
        code = blank(text)
        for m in re.finditer(r"(?m)^\s*(?:pub )?(?:const )?(?:extern \"\s*\" )?fn (\w+)", code):
            at = code.index("(", generics_end(code, m.end()))
            end = closing(code, at)
            params = []
            for p in split(code[at + 1 : end], ","):
                name, _, kind = p.partition(":")
                params.append((name.replace("mut ", "").strip(), " ".join(kind.split())))
            i, ret, clauses = end + 1, "()", []
            r = RETURN.match(code, i)
            if r:
                ret, i = " ".join(r[1].split()), r.end()
            while True:
                w = WHERE.match(code, i)
                i = w.end() if w else i
                c = CLAUSE.match(code, i)
                if not c:
                    break
                shut = closing(code, c.end() - 1)
                clauses.append((c[1], c[2] or "", code[c.end() : shut].strip()))
                i = shut + 1
            ends = re.compile(r"[{;]").search(code, i)
            opens = ends.start() if ends else i
            body = code[opens + 1 : closing(code, opens)] if ends and ends[0] == "{" else ""
            line = code.count("\n", 0, m.start(1)) + 1
            start = m.start() + len(m[0]) - len(m[0].lstrip())
            bodyline = code.count("\n", 0, opens) + 1
            fns.append(Fn(file, line, m[1], params, ret, clauses, body, bodyline, said_before(text, start)))
        for m in re.finditer(r"(?m)^(?:pub )?(enum|struct) (\w+)[^\n;{(]*([{(])", code):
            shut = closing(code, m.end() - 1)
            said = said_before(text, m.start())
            derives = re.findall(r"derive\(([^)]*)\)", text[max(0, m.start() - 120) : m.start()])
            parts = split(code[m.end() : shut], ",")
            items.append(Item(file, code.count("\n", 0, m.start(1)) + 1, m[1], m[2], derives[-1:], parts, said))
    return fns, items


def crate(x):
    return x.file.split("/")[0]


def place(f, what=""):
    return (f.file, f.line, f.name, what)


def hit(f, match, what=""):
    """A place in a body."""
    return (f.file, f.bodyline + f.body.count("\n", 0, match.start()), f.name, what)


def item_place(i, what=""):
    return (i.file, i.line, i.name, what)


# ---- point 1: Option, Result, enums

ANSWERS = re.compile(
    r"\bresult ≡ (?:last_of|road_row_of|lane_row_of|target_row_of|head_or|last_or|end_section)\b"
    r"|\bend_opt result\b|back_list result"
)
MARKED_B = re.compile(r"\b(?:back_list|turned_pairs?|row_words|turned_connection) b\b")


def ensured(f):
    return " ".join(c[2] for c in f.clauses if c[0] == "ensures")


def clauses(f):
    return " ".join(c[2] for c in f.clauses)


def answers_plus_one(f):
    return f.ret in ("usize", "u32") and ANSWERS.search(" ".join(ensured(f).split())) \
        or f.ret == "[u32; 2]" and re.search(r"\bhead_or 0\b", ensured(f))


def takes_plus_one(f):
    """The parameters that are a row, an end or a contact plus 1, and 0 for none."""
    found = []
    for p, t in f.params:
        if t not in ("usize", "u32"):
            continue
        if re.search(r"\b" + p + r" < length\b", clauses(f)):
            continue
        lowered = re.search(r"\b" + p + r" == 0\b", f.body) and re.search(r"(?<![\w.])" + p + r" - 1\b", f.body)
        if t == "usize" and p in ("road", "f", "found", "junction") or lowered and p != "i" \
                or t == "u32" and p == "road" and crate(f) in ("words", "succession"):
            found.append(p)
        elif p == "b" and MARKED_B.search(clauses(f)):
            found.append(p)
    return found


def calls(f, names, fns=()):
    """Which of these functions the body calls; not those that its crate has another of by that name."""
    hidden = {g.name for g in fns if crate(g) == crate(f)}
    return sorted(n for n in names if n not in hidden and re.search(r"(?<![\w.])" + n + r"\(", f.body))


def point1(fns, items):
    own = [item_place(i, " | ".join(i.parts)) for i in items if i.kind == "enum"
           and (any("(" in p for p in i.parts) or "Admitted" in i.parts)]
    yield "own enums of the shape of Option or Result: a case holds a value, or a case says that nothing is wrong", own
    yield "a refusal handed on by hand, where `?` would: `if !admitted(..)`", [
        hit(f, m) for f in fns for m in re.finditer(r"if !(?:verdict::)?admitted\(", f.body)]
    yield "a test that says true or false, and then the refusal that says why: `if .. { return ..Verdict::..`", [
        hit(f, m, m[1]) for f in fns
        for m in re.finditer(r"\{\s*return (?:\w+::Refused\()?Verdict::(\w+)", f.body)]
    flags = [item_place(i, ", ".join(i.parts)) for i in items if i.kind == "struct"
             and any(re.search(r"\b(flag|given|found|present)\b", p) for p in i.parts)]
    shaped = {p[2] for p in flags}
    flags += [place(f, "-> " + f.ret) for f in fns if f.ret in shaped]
    flags += [place(f, "a target as seven words") for f in fns if any(t == "[u32; 7]" for _, t in f.params)
              or re.search(r"let (\w+) = target\([^;]*;\s*if \1\[0\]", f.body) or "[0, 0, 0, 0, 0, 0, 0]" in f.body
              and f.ret == "[u32; 7]"]
    yield "a flag with a value beside it: a type with a field for it, the functions that return one, " \
        "a target as words", flags
    answer = [place(f, "-> " + f.ret) for f in fns if answers_plus_one(f)]
    names = {p[2] for p in answer}
    answer += [hit(f, m, "[0, 0]") for f in fns if crate(f) == "vorzhyket"
               for m in re.finditer(r"\[0, 0\]", f.body)]
    yield "a function that answers a row, an end or a section number, and 0 for none (by what it ensures), " \
        "or a part, and 0 and 0 for none", answer
    takes = [place(f, ", ".join(takes_plus_one(f))) for f in fns if takes_plus_one(f)]
    yield "a function that takes a number that is 0 for none, and else a row, an end or a contact plus 1", takes
    met = {p[:2] for p in answer + takes}
    others = [f for f in fns if f.name in names and not answers_plus_one(f)]
    uses = [place(f, ", ".join(calls(f, names, others)) or "owner, sides or ends") for f in fns
            if (f.file, f.line) not in met
            and (calls(f, names, others) or re.search(r"\bowner\[|\bword\((?:owner|sides|ends)\b", f.body))]
    yield "any other function that calls such a one, or reads such numbers in an array", uses
    kinds = []
    for f in fns:
        for p, t in f.params:
            end = p == "e" and re.search(r"\be ≤ 1\b", clauses(f))
            word = p == "word" and re.search(r"match word\b", f.body)
            if t in ("u32", "usize") and (end or word or p in ("kind", "contact", "way", "direction", "before")):
                kinds.append(place(f, p + ": " + t))
        if f.ret in ("u32", "usize") and re.search(r"(?i)\bkind by|\bend at which the next|\bflag('s word)?\b|1 where",
            f.said):
            if not answers_plus_one(f) and not f.name.startswith("vz_"):
                kinds.append(place(f, "-> " + f.ret))
        for m in re.finditer(r"let (kind|contact|direction)\b[^=]*= (?!reads_at|kind_read|u32::from|rows::flag)", f.body):
            kinds.append(hit(f, m, "let " + m[1]))
        words = r"|\bself\.words\[" if f.file == "repair/targets.rt" else ""
        for m in re.finditer(r"\bends\[r \* 2 \+ \w+\] = (?!chain::word_of)|index_at\(ends" + words, f.body):
            kinds.append(hit(f, m, "a word of ends: 0, 1 or a row plus 2"))
    kinds += [item_place(i, p) for i in items for p in i.parts if re.match(r"(?:pub )?(way|kind|contact): u32", p)]
    yield "a number for a kind, a contact, a direction or an end: a parameter, a local, a field, a result", kinds
    flag = re.compile(r"\bis\((?:at\()?\w+[\[,] ?[^\]]*?[\])], 1\)|\b(?!t\[)\w+\[[^\]]+\] [!=]= 1\b")
    yield "a flag or a kind read in its row, where it stands: a word that is compared with 1", [
        hit(f, m, " ".join(m[0].split())) for f in fns for m in flag.finditer(f.body) if "words[" not in m[0]
        and "tally" not in m[0] and spelled(f) != "words/rows::flag"]
    numbers = [place(f, "{} numbers".format(len(n))) for f in fns
               for n in [re.findall(r"::\w+(?:\(\w+\))? => \d+,", f.body)] if n]
    numbers += [place(f, "number(v)") for f in fns if re.search(r"=> (?:told\(step, \[)?number\(v\)", f.body)]
    numbers += [place(f, m[0]) for f in fns for m in [re.search(r"\.number\(\)|Err\(\w+\) => \d+", f.body)] if m]
    yield "a number for a refusal", numbers


# ---- point 2: twins

KEEP = set("if else while return let mut match fn for in loop true false as".split())
TYPES = set("u8 u32 u64 usize i32 f32 f64 bool str".split())


def tokens(text):
    out = []
    for t in re.findall(r"[A-Za-z_]\w*|\d[\w.]*|[^\s\w]", text):
        if t in KEEP:
            out.append(t)
        elif t in TYPES:
            out.append("T")
        elif t[0].isdigit():
            out.append("0")
        elif t[0].isalpha() or t[0] == "_":
            out.append("x")
        elif t == ",":
            continue
        else:
            out.append(t)
    return out


def shingles(ts, k=5):
    c = collections.Counter(tuple(ts[i : i + k]) for i in range(max(1, len(ts) - k + 1)))
    return {(s, j) for s, n in c.items() for j in range(n)}


def groups(n, near):
    parent = list(range(n))

    def top(i):
        while parent[i] != i:
            parent[i] = parent[parent[i]]
            i = parent[i]
        return i

    for i in range(n):
        for j in range(i):
            if near(i, j):
                parent[top(i)] = top(j)
    out = collections.defaultdict(list)
    for i in range(n):
        out[top(i)].append(i)
    return [g for g in out.values() if len(g) > 1]


def twin_groups(fns, least=20, alike=0.6):
    big = []
    for f in fns:
        ts = tokens(" ".join(t for _, t in f.params) + " -> " + f.ret + " " + f.body)
        if len(ts) >= least:
            big.append((f, shingles(ts)))

    def near(i, j):
        a, b = big[i][1], big[j][1]
        if min(len(a), len(b)) < alike * max(len(a), len(b)):
            return False
        return len(a & b) >= alike * len(a | b)

    return [[big[i][0] for i in g] for g in groups(len(big), near)]


# what is alike by name: a family, and the names in it
FAMILIES = [
    ("rows found by a key in chains", r"words/index::find_|repair/along::any_virtual|repair/reversed::runs_back"),
    ("rows linked by a key into chains", r"words/index::link_|succession/meeting::link_part"),
    ("the row of a name at two words", r"::(row_named|road_of|lane_road|marked)$|names::target_row$"),
    ("every row of a table keeps a rule",
     r"rules/worded::\w+s_worded|rules/marks::(lanes|pairs)_turn|reading/targets::targets_fit"
     r"|reading/attributes::(rows_named|names_fit)"
     r"|rules/parts::numbers_ascend"),
    ("a name lies in the text", r"::(placed_at|name_fits)$"),
    ("words or floats",
     r"words/rows::(put|put_floats)|replay/compare::same(_floats)?$|replay/convert::put_|refusals::front"),
    ("the rows of a table written one by one",
        r"(reading|repair|reversal)/\w+::put_(lanes|targets|roads|connections|edges|sections|pairs)$"),
    ("a list read the other way, counted and spilled", r"succession/converse::(count|spill)_(one|list|all)$"),
    ("finders counted and taken", r"succession/back::(count_one|take_back)$"),
    ("lists packed one after the other", r"succession/back::((count|finish)_lists|finish)$|succession/own::own_lists"),
    ("rows laid one after the other", r"(reading|repair)/laid::put$"),
    ("the first or the last of a part", r"::(first|last)_(section|of)$"),
    ("the section numbers of a road", r"rules/parts::numbers$|sections::sections_of"),
    ("a word of a table, or 0 past its end", r"repair/targets::at$|replay/compare::recorded|replay/stream::number"),
    ("the smaller of two numbers", r"::least$"),
    ("checks with arrays of their own", r"tables/check::check_|succession/call::resolve_own"),
    ("junctions linked by name in arrays of their own", r"repair/along::without_along|rules/marks::one_ended"),
    ("verdicts, one over the other", r"tables/verdict::(repair|succession|reversal|map|lane|table)_verdict"),
    ("the words of a row read from attributes", r"reading/(lanes::lane_row|targets::target_row)$"),
    ("whether contents fit their outputs", r"(repair/call|reading/junctions)::fit$|reversal/call::enough"),
    ("an answer as a number and rows, for C", r"vorzhyket/answers::|vorzhyket/readings::\w+_read$"),
    ("an answer beside the one recorded", r"replay/\w+::\w+_told$"),
    ("a call run again", r"replay/\w+::\w+_again$"),
    ("rows put one after the other", r"vectors/\w+::(two|three_roads|joined|edges|roads|lanes)$"),
    ("an answer in print", r"vectors/\w+::say_(lanes|targets|joined|repaired|reversed)$"),
    ("a float in print", r"vectors/cards::print_(float|place)$"),
    ("a value in print", r"vectors/print::print(_number|_bits)?$"),
    ("a check with two words changed", r"vectors/refusals::(roads|lanes)_say$"),
    ("sides and ends by name", r"succession/names::link_(sides|ends)"),
]


def closest(family):
    """How much the two most alike of a family have in common."""
    runs = [shingles(tokens(" ".join(t for _, t in f.params) + " -> " + f.ret + " " + f.body)) for f in family]
    return max(len(a & b) / len(a | b) for i, a in enumerate(runs) for b in runs[:i])


def spelled(f):
    return f.file.replace(".rt", "") + "::" + f.name


def point2(fns, items):
    seen, found = set(), []
    for title, names in FAMILIES:
        family = [f for f in fns if re.search(names, spelled(f))]
        seen |= {spelled(f) for f in family}
        if len(family) > 1 and closest(family) >= 0.3:
            found.append((family[0].file, family[0].line, title, ", ".join(map(spelled, family))))
    yield "families by name, two of which have at least 30 in 100 of their runs of five tokens in common", found
    alike = [g for g in twin_groups(fns) if not all(spelled(f) in seen for f in g)]
    yield "Not counted: functions of one shape in no family, which were read and are no twins: at least " \
        "60 in 100 of their runs of five tokens are the same, names, " \
        "numbers and types left out", [(g[0].file, g[0].line, g[0].name, ", ".join(map(spelled, g))) for g in alike]
    shapes = collections.defaultdict(list)
    for i in items:
        parts = tuple(p.split(":")[-1].strip() for p in i.parts)
        if i.kind == "struct":
            shapes[("struct",) + (("usize", "2 to 6") if set(parts) == {"usize"} else parts)].append(i)
        elif any("Refused(" in p for p in i.parts):
            shapes["Written or Refused"].append(i)
    yield "types with the same fields or cases (the structs of counts of rows are one shape)", [
        (g[0].file, g[0].line, g[0].name, ", ".join(i.file.replace(".rt", "") + "::" + i.name for i in g))
        for g in shapes.values() if len(g) > 1]


# ---- point 3: loops that count by hand

def loops(f):
    """Each `while` of a body: where, its test, its own body."""
    for m in re.finditer(r"\bwhile ([^{]*)\{", f.body):
        yield m, m[1].strip(), f.body[m.end() : closing(f.body, m.end() - 1)]


def counted(test, body):
    for sign, word in (("+", "up"), ("-", "down")):
        for v in re.findall(r"\b(\w+) " + re.escape(sign) + r"= 1;", body):
            if re.search(r"\b" + v + r"\b", test):
                return v, word
    return None


def point3(fns, items):
    found = {"up": [], "down": [], None: []}
    for f in fns:
        for m, test, body in loops(f):
            c = counted(test, body)
            found[c[1] if c else None].append(hit(f, m, "while " + test))
    yield "a `while` whose test has an index that its body raises by 1", found["up"]
    yield "a `while` whose test has a number that its body lowers by 1", found["down"]
    yield "Not counted: any other `while` (chains of rows, halving, a stream)", found[None]


# ---- point 4: equality, order, copying, conversion, printing

def all_cases(f, value):
    m = re.match(r"\s*match \w+ \{(.*)\}\s*$", f.body, re.S)
    return bool(m) and bool(re.fullmatch(r"(?:\s*[\w:]+(?:\([^)]*\))? => " + value + r",)+\s*", m[1]))


def point4(fns, items):
    logic = {f.name for f in fns if f.file == "words/tests.rt"}
    test = re.compile(r"(?<![\w.:])(" + "|".join(sorted(logic)) + r")\(")
    yield "tests and their joining as functions: those of words::tests, and each function that calls one", [
        place(f, "defined") for f in fns if f.file == "words/tests.rt"] + [
        place(f, "{} calls".format(len(test.findall(f.body)))) for f in fns
        if logic and f.file != "words/tests.rt" and test.search(f.body)]
    equal = [place(f) for f in fns if f.ret == "bool" and f.file != "words/tests.rt" and (
        re.fullmatch(r"\s*\w+ (?:==|!=|<|<=|>|>=) \w+\s*", f.body) or all_cases(f, "(?:true|false)")
        or re.search(r"\b(same|alike|named_alike|told|better|closer|tied|has_bits|has_key|is_digit)", f.name))]
    yield "equality and order by hand (a test of two values or of each case; by name: same, alike, told, closer, " \
        "better, tied, " \
        "has, is_digit)", equal + [place(f) for f in fns if f.name in ("least", "clamp")]
    copies = []
    for f in fns:
        for m, test, body in loops(f):
            if re.search(r"\w+\[[^\]]+\] = (?:\w+\[[^;]*|0|float\([^;]*|\([^;]*);", body) and f.name != "link_part":
                copies.append(hit(f, m, "element by element"))
        for m in re.finditer(r"\brows::copy\(|\bput\(out, 0", f.body):
            copies.append(hit(f, m, "copy"))
        if len(re.findall(r"let (\w+) = \w+\.\1;", f.body)) > 2:
            copies.append(place(f, "field by field"))
        read_at = re.findall(r"(?:\bat\((\w+), |\b(\w+)\[)\w+(?: \+ \d+)+[\])]", f.body)
        if len(read_at) > 2 and (f.ret[0] == "[" or f.ret == "Row" or "let row = [" in f.body):
            copies.append(place(f, "word by word"))
        for m in re.finditer(r"let (\w+) = (\w+)\.0;(?=(?:.|\n)*(?:Road|Lane)Id\(\1\))", f.body):
            copies.append(hit(f, m, "an identity taken out and wrapped again"))
    yield "copying by hand: elements in a loop, words of a row or fields one by one, an identity wrapped again", copies
    made = r"(bit|one|ends|direction|number|kind_at|turned_way|value|float|floats|row_found|point_at|ends_at|row_at" \
        r"|there_at|metres|no_link" \
        r"|number_at|place_bits|one_if|wide_row|entered_at|turned_bit|only|answers_of)"
    yield "conversion by hand (a value made of another: by name, and answers taken apart case by case)", [
        place(f) for f in fns if re.fullmatch(made, f.name) and f.file != "replay/stream.rt"
        or re.search(r"::Refused\(v\) => (?:number\(v\)|told)", f.body)
        or re.search(r"::\w+\([a-z]\) => \{\s*\*\w+ = ", f.body)]
    yield "printing by hand: a function that is given a value and prints it (by name: print, say)", [
        place(f, ", ".join(t for p, t in f.params[1:])) for f in fns if f.params and "impl Print" in f.params[0][1]
        and re.match(r"(print|say)(_|$)", f.name)]


# ---- point 5: facts and parameters that travel together

ROLES = [(r"\b[kmcj](heads|next)\b", r"\1"), (r"\b(?:f|successor_|predecessor_)(starts|offsets|ids)\b", r"\1"),
(r"\bstarts\b", "offsets")]


def unlet(text):
    while re.match(r"let\b", text):
        depth, i = 0, 0
        for m in re.finditer(r"[(\[{]|[)\]}]|\b(let|in)\b", text):
            if m[0] in "([{":
                depth += 1
            elif m[0] in ")]}":
                depth -= 1
            elif depth == 0 and m[0] == "in":
                i = m.end()
                break
        text = text[i:].strip()
    return text


def conjuncts(text):
    text = unlet(" ".join(text.split()))
    while text.startswith("(") and closing(text, 0) == len(text) - 1:
        text = text[1:-1].strip()
    parts = split(text, "×")
    return [text] if len(parts) < 2 else [c for p in parts for c in conjuncts(p)]


def facts(f):
    """What a contract says of its arguments, with one spelling for states, twin arrays and single numbers."""
    numbers = [p for p, t in f.params if t in ("usize", "u32", "RoadId", "LaneId")]
    out = set()
    for kind, _, text in f.clauses:
        for fact in conjuncts(text):
            if "result" in fact and kind == "ensures":
                continue
            fact = re.sub(r"\.(now|old|new)\b", "", fact)
            for p in numbers:
                fact = re.sub(r"(?<![\w.])" + p + r"(\.0)?\b", "#", fact)
            for a, b in ROLES:
                fact = re.sub(a, b, fact)
            if len(fact) > 4 and re.search(r"[≡≤<]|^[A-Z]", fact):
                out.add(fact)
    return out


def travelling(fns, least=3):
    """Runs of parameters that stand together in at least so many functions, and in no more than a longer run does."""
    runs = collections.defaultdict(set)
    for f in fns:
        names = [p for p, _ in f.params]
        for i in range(len(names)):
            for j in range(i + 2, len(names) + 1):
                runs[tuple(names[i:j])].add((f.file, f.line, f.name))
    kept = {r: fs for r, fs in runs.items() if len(fs) >= least}

    def within(a, b):
        return len(a) < len(b) and any(b[i : i + len(a)] == a for i in range(len(b) - len(a) + 1))

    closed = {r: fs for r, fs in kept.items() if not any(within(r, o) and len(os) == len(fs) for o, os in kept.items())}
    return sorted(closed.items(), key=lambda x: (-len(x[1]), x[0]))


# parameters that belong together: what they are, and a pattern for each
TOGETHER = [
    ("the tables of a map", ["text|raw", "roads", "junctions", "connections"]),
    ("the tables of a map and its lanes", ["roads", "sections", "junctions", "connections", "pairs", "lanes"]),
    ("a map and its lanes", ["map", "lanes"]),
    ("a junction and the roads' ends", ["junction", "ends"]),
    ("outputs of reading", ["connections", "pairs", "warnings"]),
    ("all tables", ["text", "roads", "sections", "junctions", "connections", "pairs", "lanes", "edges"]),
    ("the raw tables of junctions", ["text", "(raw_)?junctions", "(raw_)?connections", "(raw_lane_)?links"]),
    ("a road's sections", ["roads", "sections"]),
    ("a text and the words of a table", ["text", "ws|raw|table"]),
    ("a table and a place in it", ["ws|table|edges|lanes|roads|connections|pairs", "at"]),
    ("a table and how wide its rows are", ["ws|raw", "w"]),
    ("a junction and a connection", ["j", "c"]),
    ("a junction and its part of the connections", ["k|j", "first", "m|count"]),
    ("chains of rows", ["[kmjc]?heads", "[kmjc]?next"]),
    ("two pairs of chains", ["heads", "next", "[kmjc]heads", "[kmjc]next"]),
    ("lanes and their chains", ["lanes", "heads", "next"]),
    ("lanes and the rows of their roads", ["lanes", "owner"]),
    ("roads, their chains and marks", ["text", "roads", "heads", "next", "marks"]),
    ("roads by name", ["text", "roads", "heads", "next"]),
    ("all that succession reads", ["owner", "sides", "ends"]),
    ("roads, junctions and what the roads' ends lead to", ["roads", "junctions", "ends"]),
    ("packed lists", ["f?starts|offsets|successor_offsets|predecessor_offsets", "f?ids|successor_ids|predecessor_ids"]),
    ("packed lists, and those of who finds a lane", ["starts", "ids", "fstarts", "fids"]),
    ("a lane's list, and who finds it", ["mine", "finders"]),
    ("runs, and how far each is filled", ["offsets", "used", "out"]),
    ("lists onward and before", ["successor_offsets", "successor_ids", "predecessor_offsets", "predecessor_ids"]),
    ("a name", ["start|s", "size|l|length"]),
    ("a lane's key", ["road", "section", "number|k"]),
    ("a part", ["first", "count|m"]),
    ("a run, and how far it is filled", ["run", "n|start"]),
    ("a run of a two-way lane", ["run", "n|start", "both"]),
    ("an output, a place and whether to write", ["out", "at", "write"]),
    ("outputs of reading, and how far", ["po", "p", "wo", "w"]),
    ("outputs of repair, and how far", ["n", "p", "cs", "ps"]),
    ("the outputs of a call",
        ["connections_out|outconnections|successor_ids|targets_out",
        "pairs_out|outpairs|predecessor_ids|warnings_out"]),
    ("rows written, for C", ["a|answer", "written"]),
    ("the answers of 1 and 2", ["sizes", "words"]),
    ("the two numbers of a place", ["u", "v"]),
    ("a lane's ends and its direction", ["from|to", "leaves|enters"]),
    ("a step, and a list of it", ["step", "k|answer"]),
    ("words changed for a case", ["at", "word", "also", "other"]),
]


def point5(fns, items):
    said = collections.defaultdict(list)
    heads = collections.defaultdict(list)
    for f in fns:
        for fact in facts(f):
            said[fact].append(f)
        for h in sorted({m for c in f.clauses
            for m in re.findall(r"(?<![\w.])([A-Z]\w+) (?=[a-z(#])", re.sub(r":[^=]*=", "=", c[2]))}):
            heads[h].append(f)
    ranked = sorted(said.items(), key=lambda x: (-len(x[1]), x[0]))
    yield "a fact that stands in the contracts of three functions or more, word for word " \
        "(# is a number of the function's own)", [
        (g[0].file, g[0].line, "`" + t + "`", "{} functions: ".format(len(g)) + per_crate(g)) for t, g in ranked
            if len(g) > 2]
    yield "Not counted: the same by the name of the statement, in three functions or more, whatever it is said of", [
        (g[0].file, g[0].line, h, "{} functions: ".format(len(g)) + per_crate(g))
        for h, g in sorted(heads.items(), key=lambda x: (-len(x[1]), x[0])) if len(g) > 2]
    together = []
    for title, names in TOGETHER:
        g = [f for f in fns if all(any(re.fullmatch(n, p) for p, _ in f.params) for n in names)]
        if len(g) > 2:
            together.append((g[0].file, g[0].line, title + " (" + ", ".join(names) + ")",
            "{} functions: ".format(len(g)) + per_crate(g)))
    yield "parameters that belong together, in three functions or more", together
    yield "Not counted: runs of parameters that stand together, in this order, in three functions or more", [
        (min(g)[0], min(g)[1], ", ".join(r), "{} functions".format(len(g))) for r, g in travelling(fns)]


def per_crate(g):
    c = collections.Counter(crate(f) for f in g)
    return ", ".join("{} {}".format(k, c[k]) for k in sorted(c))


# ---- point 6: buffers, parallel arrays, sorted lists, arenas

def twin_arrays(names):
    found = []
    for a, b in (("heads", "next"), ("offsets", "ids"), ("starts", "ids")):
        for n in names:
            if n.endswith(a) and n[: -len(a)] + b in names:
                found.append(n + " and " + n[: -len(a)] + b)
    return found


def point6(fns, items):
    beside = r"\btake \(?(?:\w+|\(.*?\) \* \d)[^≡]*?\w+\.old|\boutput \w+\.old \w+" \
        r"|\b(?:pile|link_outs|connection_outs|junction_outs|state)\b" \
        r"|\b(?:Room|Took|Made|Put|Moved|Taking)\b|\b(?:WriteDue|Long|Room(?:For|ForAll))\b"
    yield "a buffer with a length or a count of what is in it beside: a lent array, a number, and a clause that " \
        "reads it as far", [
        place(f) for f in fns if re.search(beside, clauses(f))
        and any(t.startswith("&") and "[" in t for _, t in f.params) and any(t == "usize" for _, t in f.params)]
    yield "two arrays that are one thing, as parameters", [
        place(f, "; ".join(twin_arrays([p for p, _ in f.params]))) for f in fns
            if twin_arrays([p for p, _ in f.params])]
    made = re.compile(r"(?:let mut )?\b(\w+)(?: =|:) \[\w+; (\d{4,}|BUCKETS)\]")
    yield "the same made on the stack, with any other array of a thousand words or more", [
        hit(f, m, m[1] + " of " + m[2]) for f in fns for m in made.finditer(f.body)]
    sought = ("below", "has", "put_in", "shift", "take_in", "known", "next_section", "listed", "wanted", "put_if")
    by_hand = any(f.file == "succession/list.rt" and re.search(r"\bwhile\b", f.body) for f in fns)
    yield "sorted lists searched and filled by hand, and a scan for a member (a call of succession/list is none, " \
        "where that has the library's methods)", [
        place(f) for f in fns if f.name in sought and crate(f) in ("succession", "rules")
        and (by_hand or not re.search(r"\.(partition_point|binary_search|copy_within)\(|\blist::|\.knows\(", f.body))
        or by_hand and crate(f) == "succession" and re.search(r"\blist::(below|has|put_in)\(", f.body)]
    yield "chains of rows by number: a loop that walks one, a function that makes a link", [
        hit(f, m) for f in fns for m, test, body in loops(f)
        if re.search(r"\bword\(\w*next, |\bself\.next\[|\.after\(", body)] + [
        place(f, "links") for f in fns if re.search(r"\bnext\[\w+\] = (?:self\.)?heads\[", f.body)]
    yield "rows and names by number in an array of their own: owner, sides and ends as parameters", [
        place(f, ", ".join(p for p, t in f.params if p in ("owner", "sides", "ends") and "u32" in t)) for f in fns
        if any(p in ("owner", "sides", "ends") and "u32" in t for p, t in f.params)]
    yield "a name as where it starts and how long it is", [
        place(f) for f in fns if {"start", "size"} <= {p for p, _ in f.params}
        or {"start", "length"} <= {p for p, _ in f.params}
        or re.search(r"let s = (?:rows::word|index_at|at)\(.*;\s*let [ln] = ", f.body)]
    yield "a text as bytes, written out", [hit(f, m) for f in fns for m in re.finditer(r"\bb\"", f.body)]


# ---- point 7: switches and tables of functions

def point7(fns, items):
    def chosen(f):
        return [p for p, t in f.params if t == "bool"
            and re.search(r"\b" + p + r"\b", re.sub(r"\bbit\(\w+\)", "", f.body))]

    switch = [place(f, ", ".join(chosen(f))) for f in fns if chosen(f) and f.file != "words/tests.rt"]
    yield "a parameter that is true or false, by which the function or one that it calls chooses", switch
    names = {p[2] for p in switch}
    yield "a call with true or false written out", [
        hit(f, m, m[1]) for f in fns
        for m in re.finditer(r"(?<![\w.])(\w+)\((?:[^(){}]|\([^()]*\))*?\b(?:true|false)\b", f.body)
        if m[1] in names or m[1] in ("list_lookup",)]
    yield "a run that only counts, before one that writes: outputs without room, a function that is called for both", [
        hit(f, m, m[1]) for f in fns for m in re.finditer(r"let mut (no_\w+) = ", f.body)] + [
        place(f, "writes where there is room") for f in fns if f.name in ("put_if", "warn_if", "put_row")
        or f.file == "reading/laid.rt" and f.name == "put"] + [
        place(f, "outputs without room") for f in fns if "&mut []" in f.body]
    number = []
    for f in fns:
        for m in re.finditer(r"\bmatch (\w+) \{\s*\d+ =>", f.body):
            number.append(hit(f, m, "match " + m[1]))
        for m in re.finditer(r"\bif (\w+) (?:==|!=) (\d)\b", f.body):
            if m[1] in ("kind", "contact", "direction", "b", "before") and crate(f) != "geometry":
                number.append(hit(f, m, "if " + m[1] + " is " + m[2]))
        for m in re.finditer(r"only\(kind == \d", f.body):
            number.append(hit(f, m, "only where kind is so"))
    yield "a number by which the step that is run is chosen", number


# ---- point 8: proofs

def proof_files(root):
    for path in sorted(glob.glob(os.path.join(root, "crates", "*", "proofs", "**", "*.antt"), recursive=True)):
        parts = os.path.relpath(path, os.path.join(root, "crates")).split(os.sep)
        yield parts[0], parts, open(path, encoding="utf-8").read()


def answers(text):
    """The answers of a file: name and proof."""
    said = r"(?m)^pub (\S+) : goal\.\S+\n(?:unfolding [^\n]*\n(?: [^\n]*\n)*)?" \
        r"((?:\1[^\n]*(?:\n(?!\S)[^\n]*)*\n?)+)"
    for m in re.finditer(said, text):
        body = re.sub(r"^\S+(?: [^=\n]*?)? =", "", m[2].strip())
        yield m[1], " ".join(body.split()), text.count("\n", 0, m.start()) + 1


def point8(root):
    table = collections.defaultdict(collections.Counter)
    lone, same = [], collections.defaultdict(list)
    for name, parts, text in proof_files(root):
        kind = {"Answers.antt": "answers", "Invariants.antt": "invariants"}.get(parts[-1], "lemmas")
        table[name][kind + " files"] += 1
        table[name][kind + " lines"] += text.count("\n")
        if kind == "lemmas":
            table[name]["lemmas"] += len(re.findall(r"(?m)^ *\S+ (?:\{[^}]*\} )?: ", text))
            continue
        if kind != "answers":
            continue
        for goal, body, line in answers(text):
            table[name]["answers"] += 1
            where = (name + "/" + "/".join(parts[2:-1]), line, goal, body)
            if re.fullmatch(r"omega arith|search(?: rules)?|refl", body):
                lone.append(where)
                table[name]["alone"] += 1
            if len(body) > 40:
                same[body].append(where)
    stated = collections.defaultdict(list)
    for name, parts, text in proof_files(root):
        if parts[-1] in ("Answers.antt", "Invariants.antt"):
            continue
        lines = text.split("\n")
        for i, line in enumerate(lines):
            m = re.match(r"(?:pub )?([a-z]\S*) : (.*)", line)
            if not m:
                continue
            said, j = m[2], i + 1
            while j < len(lines) and lines[j].startswith(" "):
                said += " " + lines[j].strip()
                j += 1
            if len(said) > 30:
                stated[said].append((name + "/" + "/".join(parts[2:]), i + 1, m[1], said))
    rows = []
    for c in sorted(table):
        t = table[c]
        rows.append((c, 0, c, "; ".join("{} {}".format(t[k], k) for k in (
            "answers files", "answers lines", "answers", "alone", "invariants files", "invariants lines",
            "lemmas files", "lemmas lines"))))
    yield "Not counted: proof files, for each crate", rows
    yield "a lemma that is stated word for word in two places or more", [
        (g[0][0], g[0][1], g[0][2], ", ".join("{}: {}".format(w, n) for w, _, n, _ in g[1:])) for g in stated.values()
            if len(g) > 1]
    yield "answers that are a lone `omega arith`, `search`, `search rules` or `refl`", lone
    yield "an answer, longer than 40 characters, that stands word for word three times or more", [
        (g[0][0], g[0][1], g[0][2], "{} times: {}".format(len(g), b[:60])) for b,
            g in sorted(same.items(), key=lambda x: -len(x[1])) if len(g) > 2]


# ---- what is kept

def kept_rows(here):
    """The places that the page keeps: by point and file, the names."""
    rows, within = collections.defaultdict(set), False
    for line in open(os.path.join(here, "docs", "DESIGN-PASS.md"), encoding="utf-8"):
        if line.startswith("#"):
            within = line.strip().endswith("Kept, with the reason")
        m = re.match(r"\| ([1-8]) \| `([^|]*)` \| ([^|]*) \| .* \|$", line) if within else None
        if m:
            rows[int(m[1]), m[2]] |= {name.strip().strip("`") for name in m[3].split(";")}
    return rows


def kept_name(p):
    """A place's name there: without marks, and of a group of parameters its title alone."""
    return p[2].strip("`") if p[2].startswith("`") else p[2].split(" (")[0]


# ---- printing

def main():
    args = sys.argv[1:]
    short, left = "--short" in args, "--left" in args
    here = os.path.dirname(os.path.dirname(os.path.abspath(__file__)))
    root = args[args.index("--root") + 1] if "--root" in args else here
    kept, used = kept_rows(here) if root == here else collections.defaultdict(set), set()
    asked = [int(a) for a in args if a.isdigit()] or list(POINTS)
    fns, items = read(root)
    print("{} functions, {} structs and enums".format(len(fns), len(items)))
    for n in asked:
        rules = point8(root) if n == 8 else globals()["point{}".format(n)](fns, items)
        rules = list(rules)
        counted = [p for rule, f in rules if not rule.startswith("Not counted") for p in f]
        stays = {p for p in counted if kept_name(p) in kept[n, p[0]]}
        used |= {(n, p[0], kept_name(p)) for p in stays}
        many = sum(p in stays for p in counted)
        print("\n## {}: {} places, {} kept, {} left".format(n, len(counted), many, len(counted) - many))
        for rule, found in rules:
            if left:
                found = [p for p in found if p not in stays and not rule.startswith("Not counted")]
                if not found:
                    continue
            print("\n{}: {}".format(rule, len(found)))
            if not short:
                for file, line, name, what in found:
                    print("  {}{}{}".format("{}:{} ".format(file, line) if line else "", name, "  " + what
                        if what else ""))
                continue
            by = collections.OrderedDict()
            for file, line, name, what in found:
                by.setdefault(file, []).append(name)
            for file in by:
                c = collections.Counter(by[file])
                print("  {} {}: {}".format(file, len(by[file]),
                    ", ".join(k if v == 1 else "{} ({})".format(k, v) for k, v in c.items())))
    for n, file in sorted(kept):
        for name in sorted(kept[n, file]):
            if n in asked and (n, file, name) not in used:
                print("\nkept, but not found: {} {} {}".format(n, file, name))


if __name__ == "__main__":
    main()
