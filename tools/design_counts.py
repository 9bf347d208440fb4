#!/usr/bin/env python3
"""Counts the places that docs/DESIGN-PASS.md speaks of, in the .rt files of crates/*/src, and the proofs of the crates.

usage, at the top of a checkout:
    tools/design_counts.py               the number of places of each pattern, in all and by crate
    tools/design_counts.py --list [P ..] each place too, file:line and the line; with P only of these points or patterns (3, 4.2)
    tools/design_counts.py --markdown    the counts as the page's tables

A place is a line of a file. A pattern with a letter (1.a) counts what stands beside the places of its point: it is not in the point's number, which
has each line once. The files are read as text, without their comments and, where code is looked at, without contracts; nothing is proved or written.
"""
import bisect
import collections
import functools
import pathlib
import re
import sys

# What has no form of its own is listed here by name, and nowhere else.
NAMES = {
    # the stored records, whose yes/no fields are data of the rules
    "records": "Node Declaration Link".split(),
    # types of whole states and of what is read, which a printer is given beside what it prints
    "wholes": "Kernel Player State Line Call".split(),
    # types that say why something was refused
    "refusals": "Error|Refusal",
    # bare cases that stand for nothing beside cases that hold something
    "nothing": r"None|Nothing|Missing|Absent|No[A-Z]\w*",
    # operands and fields that hold a number for a kind, a test or a refusal; functions that give or take one by a number alone
    "kinds": "answer:u8 refusal:u8 number:u8 kind:u8 test:usize name:usize what:usize".split(),
    "kind_functions": "addition last_answer length_of".split(),
    # what is compared with a literal number where it stands for one; a field that says which others are meant
    "kind_words": "name|answer|number|refusal|kind|test|what",
    "kind_field": "kind",
    # equality, and tests for blank records
    "same": r"same(?:_\w+)?",
    "blank_tests": r"is_blank_\w+",
    # the two fields of a port
    "port": ("key|k", "realm|r"),
    # buffers that printers fill, and their places
    "buffers": ("out|said|text", "at|next|0|written"),
    # numbers behind an array that are a place in it and no count
    "places": "id owner parent place".split(),
    # the arrays of a chain
    "chain": {"first", "next"},
    # an enum of steps whose cases hold operands
    "steps": ["Rule"],
    # functions and types that say one thing twice (name, name@crate or name@crate/file)
    "twins": [
        "live_links kept_declarations", "dead_links@edits dead_links@drain", "chain_ports chain_declarations", "is_inactive is_loading is_active is_unloading",
        "answer_number insert_answer_number", "Outcome InsertOutcome CompactionOutcome", "of_outcome of_insertion of_compaction of_stop",
        "blank_port blank_binding blank_node blank_declaration blank_link blank_step", "is_blank_node is_blank_declaration is_blank_link",
        "either_declaration either_link", "target@text/answers committed@text/answers identities@text/answers", "target@player committed@player identities@player",
        "nobrighi_asked@player nobrighi_record@player nobrighi_explained@reasons", "empty_list no_ports blank_list", "issued@player issued@cases",
        "check_iteration check_leave_if_changed", "resolve_in resolve_table", "target_in target_table", "distinct_ports check_provisions", "repeat_in clash_in",
        "link_of@explain link_of_port", "Parent StoredParent", "Answer InsertAnswer", "OptionPhase OptionGeneration OptionUnresolved", "KeptLinks KeptDeclarations",
        "TargetBindings CommittedBindings", "CommandKind StepCommand Transition", "kind_of@reasons kind_of@cases", "byte_at@player byte_at@text",
        "play_open@play play_file@play", "no_number@affected no_number@why", "ask_arguments@affected ask_arguments@why", "play@cases play_file@cases",
        "nodes@player declarations@player links@player", "state_test retired_test",
    ],
}

NUMBER = r"[ui](?:8|16|32|64|128|size)"
COMMENT = re.compile(r"//[^\n]*|/\*.*?\*/|b?r?\"(?:\\.|[^\"\\])*\"|(?<![\w'])b?'(?:\\[^\n]{1,8}?|[^'\\\n])'", re.S)
CLOSE = {"(": ")", "[": "]", "{": "}", "<": ">"}
KEYWORDS = set("fn let mut if else while loop for in return match break continue as pub const self move ref where impl".split())


# ---- the text: functions with their contracts, types, loops, matches

def blanks(text):
    return re.sub(r"[^\n]", " ", text)


def without_comments(text):
    """The code with blanks for comments and for what stands between quotes, of the same length."""
    def cover(m):
        s = m.group(0)
        if s[0] == "/":
            return blanks(s)
        i = min(k for k in (s.find('"'), s.find("'")) if k >= 0)
        return s[:i + 1] + blanks(s[i + 1:-1]) + s[-1]
    return COMMENT.sub(cover, text)


def closing(code, i):
    """The place of the bracket that closes the one at place i."""
    a, b, depth = code[i], CLOSE[code[i]], 0
    for k in range(i, len(code)):
        if code[k] == a:
            depth += 1
        elif code[k] == b and not (b == ">" and code[k - 1] in "-="):
            depth -= 1
            if depth == 0:
                return k
    return len(code) - 1


def parts(text, start):
    """The parts of a text between commas outside of brackets, each with its place in the file."""
    rows, depth, begin = [], 0, 0
    text = re.sub(r"#\[[^\]]*\]", lambda m: blanks(m.group(0)), text) + ","
    for i, c in enumerate(text):
        if c in "([{<":
            depth += 1
        elif c in ")]}" or c == ">" and text[i - 1:i] not in ("-", "="):
            depth -= 1
        elif c == "," and depth == 0:
            s = text[begin:i]
            if s.strip():
                rows.append((" ".join(s.split()), start + begin + len(s) - len(s.lstrip())))
            begin = i + 1
    return rows


class File:
    def __init__(self, path, root):
        self.path = str(path.relative_to(root))
        self.crate, self.stem = path.relative_to(root).parts[1], path.stem
        self.text = path.read_text(encoding="utf-8")
        self.code = without_comments(self.text) if path.suffix == ".rt" else self.text
        self.starts = [0] + [m.end() for m in re.finditer("\n", self.text)]
        self.lines = self.text.split("\n")

    def line(self, place):
        return bisect.bisect_right(self.starts, place)


class Function:
    """params: (name, type, place); clauses: (text, place); body: the text between its brackets, from start on; within: the head of its `impl`."""
    def __init__(self, file, place, name):
        self.file, self.at, self.name = file, place, name
        self.params, self.result, self.clauses, self.body, self.start, self.within = [], "", [], "", place, ""


class Type:
    """parts: of a struct (field, type, place), of an enum (case, what it holds, place)."""
    def __init__(self, file, place, kind, name):
        self.file, self.at, self.kind, self.name, self.parts = file, place, kind, name, []
        self.holds = False  # whether a case holds something


def functions_of(file):
    """The functions of a file; their contracts are then blanked in its code."""
    found, contracts, code = [], [], file.code
    heads = [(m.start(), closing(code, m.end() - 1), m.group(0)) for m in re.finditer(r"^[ \t]*impl\b[^{;]*\{", code, re.M)]
    clause, bound = re.compile(r"\s*(requires|ensures)\b\s*\w*\s*(?=\{)"), re.compile(r"\s*where\b[^{;]*?(?=\brequires\b|\bensures\b|[{;])", re.S)
    for m in re.finditer(r"\bfn\s+(\w+)\s*", code):
        f, i = Function(file, m.start(), m.group(1)), m.end()
        f.within = " ".join(head for a, b, head in heads if a < f.at < b)
        if code[i:i + 1] == "<":
            i = closing(code, i) + 1
        if code[i:i + 1] != "(":
            continue
        end = closing(code, i)
        for part, place in parts(code[i + 1:end], i + 1):
            name, _, kind = part.partition(":")
            f.params.append((name.replace("mut ", "").strip(), kind.strip(), place))
        i, depth = end + 1, 0
        while i < len(code) and (depth or not (code[i] in "{;" or code[i - 1].isspace() and re.match(r"(requires|ensures|where)\b", code[i:i + 9]))):
            depth += (code[i] in "([") - (code[i] in ")]")
            i += 1
        f.result = " ".join(code[end + 1:i].replace("->", " ", 1).split())
        while clause.match(code, i) or bound.match(code, i):
            w = clause.match(code, i)
            if w:
                end = closing(code, w.end())
                f.clauses.append((" ".join(code[w.end() + 1:end].split()), w.start(1)))
                contracts.append((w.start(1), end + 1))
            i = end + 1 if w else bound.match(code, i).end()
        w = re.compile(r"\s*\{").match(code, i)
        if w:
            f.body, f.start = code[w.end():closing(code, w.end() - 1)], w.end()
        found.append(f)
    for a, b in contracts:
        file.code = file.code[:a] + blanks(file.code[a:b]) + file.code[b:]
    return found


def types_of(file):
    code = file.code
    for m in re.finditer(r"^[ \t]*(?:pub(?:\([^)]*\))?\s+)?(struct|enum)\s+(\w+)\s*", code, re.M):
        t, i = Type(file, m.start(1), m.group(1), m.group(2)), m.end()
        if code[i:i + 1] == "<":
            i = closing(code, i) + 1
        i += len(code[i:]) - len(code[i:].lstrip())
        for part, place in parts(code[i + 1:closing(code, i)], i + 1) if code[i:i + 1] in ("{", "(") else []:
            part = re.sub(r"^pub(?:\([^)]*\))?\s+", "", part)
            if t.kind == "struct":
                name, colon, kind = part.partition(": ")
                t.parts.append((name, kind, place) if colon else ("", part, place))
            else:
                w = re.match(r"\w+", part)
                held = part[w.end():].strip()
                t.parts.append((w.group(0), "" if held.startswith("=") else held, place))
                t.holds = t.holds or bool(t.parts[-1][1])
        yield t


def loops_of(file):
    """Each `while`: its file, its place, its condition, and its body without the loops inside."""
    for m in re.finditer(r"\bwhile\b([^{]*)\{", file.code):
        body, own, i = file.code[m.end():closing(file.code, m.end() - 1)], "", 0
        for w in re.finditer(r"\b(?:while|loop|for)\b[^{;]*\{", body):
            if w.start() >= i:
                own, i = own + body[i:w.start()], closing(body, w.end() - 1) + 1
        yield file, m.start(), m.group(1), own + body[i:]


def matches_of(file):
    """Each `match`: its file, its place, and its arms, left and right."""
    code = file.code
    for m in re.finditer(r"\bmatch\s+[^{;]*?\s*\{", code):
        end, i, arms = closing(code, m.end() - 1), m.end(), []
        while 0 <= code.find("=>", i, end):
            arrow = code.find("=>", i, end)
            k = arrow + 2 + len(code[arrow + 2:end]) - len(code[arrow + 2:end].lstrip())
            j, depth = closing(code, k) + 1 if code[k] == "{" else k, 0
            while code[k] != "{" and j < end and (depth or code[j] != ","):
                depth += (code[j] in "([{") - (code[j] in ")]}")
                j += 1
            arms.append((" ".join(code[i:arrow].split()), code[k:j]))
            i = j + len(code[j:end]) - len(code[j:end].lstrip(", \n"))
        yield file, m.start(), arms


class Tree:
    def __init__(self, root):
        def files(folder, ending):
            return [File(p, root) for p in sorted(root.glob(f"crates/*/{folder}/**/*{ending}"))]
        self.files, self.proofs, self.specs = files("src", ".rt"), files("proofs", ".antt"), files("specs", ".antt")
        self.functions = [f for file in self.files for f in functions_of(file)]
        self.types = [t for file in self.files for t in types_of(file)]
        self.loops = [x for file in self.files for x in loops_of(file)]
        self.matches = [x for file in self.files for x in matches_of(file)]
        self.structs, self.enums = ([t for t in self.types if t.kind == kind] for kind in ("struct", "enum"))
        self.own, self.enum_names = {t.name for t in self.types}, {t.name for t in self.enums}
        self.alias = {m.group(1): m.group(2) for f in self.files for m in re.finditer(r"\btype\s+(\w+)[^=;]*=\s*([^;]+);", f.code)}
        self.answers = [f for f in self.proofs if f.path.endswith("/Answers.antt")]
        pages = [p for p in [*root.glob("README.md"), *root.glob("docs/**/*.md")] if p.name != "DESIGN-PASS.md"]
        self.named = set(WORD.findall(" ".join(p.read_text(encoding="utf-8") for p in pages).replace("`", " ")))

    def find(self, form):
        return [(file, m.start()) for file in self.files for m in re.finditer(form, file.code, re.M)]

    def calls(self, functions):
        """Calls of these functions: in their own file, behind the name of their crate or file, or imported by name."""
        rows = []
        for f in {(f.name, f.file): f for f in functions}.values():
            for file in self.files:
                uses = " ".join(m.group(0) for m in re.finditer(r"^(?:pub )?use [^;]*;", file.code, re.M))
                near = f.file.crate if file.crate != f.file.crate else "crate"
                named = re.search(r"\b%s::[^;]*\b%s\b" % (near, f.name), uses)
                for m in re.finditer(r"(?<!fn )(?<![.\w])((?:\w+::)*)%s\s*\(" % f.name, file.code):
                    path = m.group(1).split("::")[:-1]
                    if file is f.file and not path or not path and named or path and path[-1] in (near, f.file.stem, f.file.crate):
                        rows.append((file, m.start()))
        return rows


def unborrowed(kind):
    return re.sub(r"^&\s*(?:'\w+\s+)?(?:mut\s+)?", "", kind)


def at(things):
    return [(x.file, x.at) for x in things]


# ---- 1. own enums of the shape of Option or Result, flags beside values, numbers for kinds

def two_cased(tree):
    return [t for t in tree.enums if len(t.parts) == 2 and t.holds]


def more_cased(tree):
    return [t for t in tree.enums if len(t.parts) > 2 and t.holds]


def is_nothing(name, held):
    return not held and re.fullmatch(NAMES["nothing"], name)


def flags(tree):
    return [(t, name, p) for t in tree.structs if t.name not in NAMES["records"] and len(t.parts) > 1 for name, kind, p in t.parts if kind == "bool"]


def answers_beside(tree):
    own = {t.name for t in two_cased(tree) if any(re.search(r"\b(%s)\b" % NAMES["refusals"], held) for _, held, _ in t.parts)}
    return [(t, name, p) for t in tree.structs for name, kind, p in t.parts
            if (kind in own or re.match(r"(\w+::)*Result\b", tree.alias.get(kind, kind))) and any(k != "Kernel" and n != name for n, k, _ in t.parts)]


def kinds_beside(tree):
    return [(t, name, p) for t in tree.structs for name, kind, p in t.parts
            if re.fullmatch(NAMES["kind_field"], name) and kind in {e.name for e in tree.enums if not e.holds} and len(t.parts) > 2]


def is_from(f):
    """Whether a function is a From or a TryFrom: then its conversion is the language's own."""
    return bool(re.search(r"\b(?:Try)?From\b", f.within))


def to_number(tree):
    return [f for f in tree.functions if re.fullmatch(NUMBER, f.result) and len(f.params) == 1 and unborrowed(f.params[0][1]) in tree.enum_names and not is_from(f)]


def from_number(tree):
    return [f for f in tree.functions if re.sub(r"^(?:Option|Result)<\s*(\w+).*", r"\1", f.result) in tree.enum_names
            and f.params and all(re.fullmatch(NUMBER, k) for _, k, _ in f.params) and not is_from(f)]


def kind_operands(tree):
    rows = [(x.file, p) for x in tree.functions for n, k, p in x.params if n + ":" + k in NAMES["kinds"]]
    rows += [(x.file, p) for x in tree.structs for n, k, p in x.parts if n + ":" + k in NAMES["kinds"]]
    return rows + at(f for f in tree.functions if f.name in NAMES["kind_functions"])


def kinds_compared(tree):
    word, sign = r"(?:\w+\.)?(?:%s)" % NAMES["kind_words"], r"\s*(?:==|!=|<=|>=|<|>)\s*"
    return tree.find(r"(?<![\w.])%s%s[0-9]\w*\b|(?<![\w.])[0-9]\w*%s%s\b(?!\s*[.(])" % (word, sign, sign, word))


def cases_named(tree, types, wanted=lambda name, held: True):
    """The places that name a case of these enums: in a pattern, and made."""
    met, made = [], []
    for t in types:
        names = [n for n, held, _ in t.parts if wanted(n, held)]
        for file in tree.files if names else []:
            for m in re.finditer(r"\b%s::(?:%s)\b" % (t.name, "|".join(names)), file.code):
                i = m.end()
                if file.code[i:i + 1] in ("(", "{"):
                    i = closing(file.code, i) + 1
                behind, before = file.code[i:i + 40].lstrip(" )\n"), file.code[max(0, m.start() - 40):m.start()]
                is_met = re.match(r"=>|\|(?!\|)|=(?!=)|if\b", behind) or re.search(r"\blet\s+\(?$|matches!\([^()]*,\s*$", before)
                (met if is_met else made).append((file, m.start()))
    return met, made


def flagged_made(tree):
    names = sorted({t.name for t, _, _ in flags(tree) + answers_beside(tree) + kinds_beside(tree)})
    return tree.find(r"(?<!struct )(?<!enum )(?<!impl )(?<!-> )\b(?:%s)\s*\{" % "|".join(names)) if names else []


def flags_read(tree):
    mine = {(t.name, n) for t, n, _ in flags(tree)}
    names = sorted({n for _, n in mine if all((t.name, n) in mine for t in tree.structs for m, _, _ in t.parts if m == n)})
    return tree.find(r"\.(?:%s)\b(?!\s*\()" % "|".join(names)) if names else []


# ---- 2. twins

def shape_of(code):
    rows = []
    for w in re.findall(r"b?\"\s*\"|b?'\s*'|'\w+(?!')|\w+|[^\s\w]", code):
        if w.lstrip("b")[:1] in ("'", '"') or w[0].isdigit() or w in ("true", "false"):
            rows.append("0")
        elif w in KEYWORDS or not re.match(r"\w", w):
            rows.append(w)
        else:
            rows.append("T" if w[0].isupper() else "x")
    return rows


@functools.lru_cache(None)
def twin_functions(tree):
    """Groups of functions whose bodies have one shape, from 16 words on, or nearly one, from 30 on."""
    rows = [(f, shape_of(f.body)) for f in tree.functions]
    rows = [(f, s, collections.Counter(tuple(s[i:i + 5]) for i in range(len(s) - 4))) for f, s in rows if len(s) >= 16]
    group = list(range(len(rows)))

    def top(i):
        while group[i] != i:
            i = group[i]
        return i
    for i, (_, s, a) in enumerate(rows):
        for j, (_, t, b) in enumerate(rows[:i]):
            short, long = sorted((len(s), len(t)))
            if s == t or short >= 30 and short >= 0.7 * long and 2 * sum((a & b).values()) >= 0.8 * (short + long - 8):
                group[top(i)] = top(j)
    found = collections.defaultdict(list)
    for i, row in enumerate(rows):
        found[top(i)].append(row[0])
    return [g for g in found.values() if len(g) > 1]


def twin_types(tree):
    rows, shapes = [], collections.defaultdict(list)
    for kind in (tree.structs, tree.enums):
        for t in kind:
            mine = {n for n, _, _ in t.parts if n}
            rows += [x for u in kind if t is not u and len(mine) > 1 and mine <= {n for n, _, _ in u.parts} for x in (t, u)]
    for t in tree.structs:
        shapes[tuple("[]" if k.startswith("[") else re.sub(r"[A-Z]\w*|%s" % NUMBER, "T", k) for _, k, _ in t.parts)].append(t)
    return rows + [t for shape, g in shapes.items() if "[]" in shape and len(g) > 1 for t in g]


def known_twins(tree):
    where = collections.defaultdict(list)
    for x in tree.functions + tree.types:
        for name in (x.name, f"{x.name}@{x.file.crate}", f"{x.name}@{x.file.crate}/{x.file.stem}"):
            where[name].append(x)
    rows = [[x for name in row.split() for x in where[name]] for row in NAMES["twins"]]
    return [x for row in rows if len(row) > 1 for x in row]


def runs(tree, least=8):
    """Runs of lines of one shape in two places; imports, comments and lone words are passed over."""
    keep = set("fn let if else while loop for in return match struct enum impl pub".split())
    rows, seen = {}, collections.defaultdict(list)
    for file in tree.files:
        rows[file] = []
        for n, line in enumerate(file.lines, 1):
            s = line.strip()
            if s and not s.startswith(("//", "use ", "ghost use", "pub mod", "mod ")) and not re.fullmatch(r"[\w']+\)?|[{}();,]+", s):
                rows[file].append((n, re.sub(r"[^\s()\[\]{}.,;:=]+", lambda m: m.group(0) if m.group(0) in keep else "x", s)))
        for i in range(len(rows[file]) - least + 1):
            seen[tuple(shape for _, shape in rows[file][i:i + least])].append((file, i))
    found, used = [], set()
    for places in seen.values():
        for k, (p, i) in enumerate(places if len(places) <= 12 else []):
            for q, j in places[k + 1:]:
                if (p, i, q, j) in used or p is q and abs(i - j) < least:
                    continue
                n = 0
                while i + n < len(rows[p]) and j + n < len(rows[q]) and rows[p][i + n][1] == rows[q][j + n][1] and not (p is q and i + n >= j):
                    used.add((p, i + n, q, j + n))
                    n += 1
                if n >= least:
                    found.append([(f, rows[f][a][0], rows[f][a + n - 1][0]) for f, a in ((p, i), (q, j))])
    return found


def repeated_lines(tree):
    stretches = collections.defaultdict(list)
    for file, a, b in sorted({s for pair in runs(tree) for s in pair}, key=lambda s: (s[0].path, s[1], s[2])):
        if stretches[file] and a <= stretches[file][-1][1]:
            stretches[file][-1][1] = max(b, stretches[file][-1][1])
        else:
            stretches[file].append([a, b])
    return [(file, file.starts[a - 1]) for file, rows in stretches.items() for a, _ in rows]


# ---- 3. loops

STEP = r"\b(\w+)\s*[+-]=\s*[0-9]+\s*;|\b(\w+)\s*=\s*\2\s*[+-]\s*[0-9]+\s*;|\b(\w+)\s*=\s*(?:\w+::)*wrapping_add\w*\(\s*\3\s*,\s*[0-9]+\s*\)"


def walks(tree):
    return [x for x in tree.loops if any(re.search(r"\b%s\b" % m.group(1), x[2]) for m in re.finditer(r"\b(\w+)\s*=\s*\w+(?:\.\w+)*\[[^\]]*\]\s*;", x[3]))]


def counted(tree):
    return [x for x in tree.loops if re.search(STEP, x[3]) and x not in walks(tree)]


def indexing(tree):
    return [x for x in counted(tree) if any(re.search(r"\w\[\s*%s\s*\]" % n, x[3]) for m in re.finditer(STEP, x[3]) for n in m.groups() if n)]


def places(loops):
    return [x[:2] for x in loops]


# ---- 4. what a derive or a trait would write

@functools.lru_cache(None)
def fields_compared(tree, sign):
    rows = []
    for f in tree.functions:
        names = [n for n, _, _ in f.params]
        found = re.finditer(r"\b(\w+)\.(\w+)(?:\[[^\]]*\])?\s*%s\s*(\w+)\.\2\b" % sign, f.body)
        if any(m.group(1) in names and m.group(3) in names and m.group(1) != m.group(3) for m in found):
            rows.append(f)
    return rows


def equalities(tree):
    return [f for f in tree.functions if f.result == "bool" and (re.fullmatch(NAMES["same"], f.name) or f in fields_compared(tree, "=="))]


def within(functions, file, place):
    return any(f.file is file and f.start <= place < f.start + len(f.body) for f in functions)


def equality_in_place(tree):
    rows = []
    for file in tree.files:
        for n, start in enumerate(file.starts):
            sides = [m.groups() for m in re.finditer(r"([\w.\[\]]+)\s*==\s*([\w.\[\]]+)", file.code[start:start + len(file.lines[n])])]
            words = [x for s in sides if not any(y[0].isdigit() for y in s) for x in s]
            if all(any(re.search(r"\b(?:%s)\b" % name, x) for x in words) for name in NAMES["port"]) and not within(equalities(tree), file, start):
                rows.append((file, start))
    return rows


def case_tests(tree):
    return [f for f in tree.functions if f.result == "bool" and re.match(r"\s*match\b", f.body) and re.search(r"=>\s*(?:true|false)\b", f.body)]


def blank_tests(tree):
    return [f for f in tree.functions if re.fullmatch(NAMES["blank_tests"], f.name)]


def casts(tree):
    return [f for f in tree.functions if re.fullmatch(NUMBER, f.result) and len(f.params) == 1 and re.fullmatch(NUMBER, f.params[0][1])
            and re.search(r"\bas\s+%s\b" % NUMBER, f.body) and ";" not in f.body]


def field_copies(tree):
    rows = []
    for file in tree.files:
        for m in re.finditer(r"(?<!struct )(?<!enum )(?<!impl )(?<!-> )\b([A-Z]\w*)\s*\{", file.code):
            inside = file.code[m.end():closing(file.code, m.end() - 1)]
            copied = collections.Counter(w.group(2) for w in re.finditer(r"\b(\w+)\s*:\s*(\w+)\.\1\b(?!\s*[(.|&])", inside))
            if (m.group(1) in tree.own or m.group(1) == "Self") and not re.search(r"=>|;", inside) and copied and max(copied.values()) > 1:
                rows.append((file, m.start()))
    return rows


def getters(tree):
    return [f for f in tree.functions if len(f.params) == 1 and "self" not in f.params[0][0]
            and re.fullmatch(r"\s*%s\.\w+(?:\s+as\s+%s)?\s*" % (re.escape(f.params[0][0]), NUMBER), f.body)]


def printers(tree):
    own = tree.own - set(NAMES["wholes"])
    return [f for f in tree.functions if any(re.fullmatch(r"(?:%s):&mut \[u8\]" % NAMES["buffers"][0], n + ":" + k) for n, k, _ in f.params)
            and any(unborrowed(k) in own for _, k, _ in f.params)]


# ---- 5. facts and operands that come again and again

def conjuncts(text):
    rows, depth, start = [], 0, 0
    for i, c in enumerate(text + "×"):
        depth += (c in "({[") - (c in ")}]")
        if c == "×" and depth == 0:
            rows.append(text[start:i].strip())
            start = i + 1
    return [y for x in rows if x for y in (conjuncts(x[1:-1]) if x[0] == "(" and closing(x, 0) == len(x) - 1 else [x])]


@functools.lru_cache(None)
def facts(tree):
    """The facts and premises that three or more contracts state, with the contracts' places."""
    rows = collections.defaultdict(dict)
    for f in tree.functions:
        own = {n for n, _, _ in f.params} - {"self", "out"}
        for text, p in f.clauses:
            for fact in conjuncts(text):
                words = re.sub(r"[\w']+", lambda m: "_" if m.group(0) in own else m.group(0), fact)
                left = re.match(r"([^(].*?[≡≤<].+?)\s→\s", words)
                for says in [words] + ([left.group(1) + " → .."] if left else []):
                    rows[says].setdefault(id(f), (f.file, p))
    return {k: list(v.values()) for k, v in rows.items() if len(v) > 2}


@functools.lru_cache(None)
def side_by_side(tree):
    """The functions by operand, and by each two operands side by side in three signatures or more, by name and type."""
    one, two = collections.defaultdict(set), collections.defaultdict(set)
    for f in tree.functions:
        names = [n + ": " + k for n, k, _ in f.params if "self" not in n]
        for p in names:
            one[p].add(f)
        for pair in zip(names, names[1:]):
            two[pair].add(f)
    return one, {k: v for k, v in two.items() if len(v) > 2}


def pairs(tree):
    """Operands that travel together: in three fifths of the signatures that have either."""
    one, two = side_by_side(tree)
    return {(a, b): v for (a, b), v in two.items() if len(v) >= 0.6 * max(len(one[a]), len(one[b]))}


def tables_and_counts(tree):
    return [f for f in tree.functions for (_, a, _), (n, b, _) in zip(f.params, f.params[1:])
            if re.match(r"(?:&\s*(?:mut\s+)?)?\[.*;", a) and b == "usize" and n not in NAMES["places"]]


# ---- 6. buffers, columns, searches, chains

def twice(sizes):
    return any(n > 1 for n in collections.Counter(m.group(1) for m in sizes if m).values())


def parallel_arrays(tree):
    array, made = re.compile(r"(?:&\s*(?:mut\s+)?)?\[.*;\s*(\w+)\s*\]$"), r"\blet\s+(?:mut\s+)?\w+(?:\s*:[^=]*)?\s*=\s*\[[^\];]*;\s*([A-Z]\w*)\s*\]"
    return [t for t in tree.structs if twice(array.match(k) for _, k, _ in t.parts)] + [
        f for f in tree.functions if twice(array.match(k) for _, k, _ in f.params if k[:1] == "&") or twice(re.finditer(made, f.body))]


def arenas(tree):
    built = tree.find(r"\b\w+\[(\w+)\]\s*=\s*(\w+)\[(\w+)\];\s*\2\[\3\]\s*=\s*\1\b")
    return places(walks(tree)) + built + at(f for f in tree.functions if NAMES["chain"] <= {n for n, _, _ in f.params})


# ---- 7. switches

def called(text):
    """The first function that an arm calls, without its path."""
    m = re.search(r"\b(?:\w+(?:::|\.))*([a-z_]\w*)\s*\(", text)
    return m.group(1) if m else None


def switches(tree, bare):
    """Matches, outside of 4.1, whose arms call three functions or more; on bare cases and numbers alone, or on others too."""
    return [(file, p, arms) for file, p, arms in tree.matches if len({called(right) for _, right in arms} - {None}) > 2
            and not within(equalities(tree), file, p) and bare == all(re.fullmatch(r"[\w:| ]+", left) for left, _ in arms)]


def switches_by_ifs(tree):
    rows, operand, number = [], r"([a-z]\w*(?:\.[a-z]\w*)?)", r"([0-9]\w*|[A-Z][A-Z_]+)\b"
    form = re.compile(r"(?<![\w.])%s\s*(?:==|<)\s*%s|(?<![\w.])%s\s*(?:==|<)\s*%s(?!\s*[(.\w])" % (operand, number, number, operand))
    for f in tree.functions:
        met = collections.defaultdict(set)
        for m in re.finditer(r"\bif\b([^{;]*)\{", f.body):
            for w in form.finditer(m.group(1)):
                met[w.group(1) or w.group(4)].add((m.start(), w.group(2) or w.group(3)))
        if f not in fields_compared(tree, "==") and any(len({a for a, _ in v}) > 1 and len({b for _, b in v}) > 1 for v in met.values()):
            rows.append(f)
    return rows


def step_kinds(tree):
    met = {m.group(1) for _, _, arms in switches(tree, True) for left, _ in arms for m in re.finditer(r"\b(\w+)::\w+", left)}
    return [t for t in tree.enums if t.name in met and not t.holds or t.name in NAMES["steps"]]


# ---- 8. proofs

WORD = re.compile(r"[^\s()\[\]{},;.:=λ|\"]+")
HEAD = re.compile(r"^(\s*)((?:pub|abbrev|unfoldable|opaque)\s+)*([^\s(){}]+)\s+:(?:\s|$)")


@functools.lru_cache(None)
def uncited(tree):
    """The `pub` lemmas under proofs/, no goals, abbreviations or records, whose names stand in no other text of an .antt or .rt file but imports."""
    declared, spoken = [], set()
    for file in tree.proofs + tree.specs + tree.files:
        has_laws = "/proofs/" in file.path and not file.path.endswith(("/Answers.antt", "/Invariants.antt"))
        block, record = "", None
        for n, line in enumerate(file.lines):
            line = line.split("--")[0].rstrip() if file.path.endswith(".antt") else line
            if re.match(r"\s*(?:pub |ghost )?use\s|\s*//", line):
                continue
            indent, words = len(line) - len(line.lstrip()), line.split()
            if record is not None and words and indent <= record:
                record = None
            head = HEAD.match(line) if has_laws and record is None and indent <= 4 else None
            if has_laws and re.match(r"\s*(?:pub\s+|unfoldable\s+|abbrev\s+)*(?:record|data)\b", line):
                record, block = indent, ""
            elif head and words[0] not in ("let", "→"):
                block = head.group(3)
                if words[0] == "pub" and WORD.fullmatch(block):
                    declared.append((block, file, file.starts[n]))
            elif has_laws and words and indent == 0 and record is None:
                block = words[0]
            spoken.update(w for w in WORD.findall(line) if w != block)
    return [x for x in declared if x[0] not in spoken]


def idle(tree, theorems, named=None):
    return [(f, p) for name, f, p in uncited(tree) if theorems == ("/Theorems" in f.path) and named in (None, name in tree.named)]


def all_lines(files):
    return [(f, p) for f in files for p in f.starts[:len(f.text.splitlines())]]


# ---- the points and their patterns: number, what it is, what it can miss or counts too, how it is found

POINTS = {
    "1": "own enums of the shape of Option or Result, flags beside values, numbers for kinds and refusals",
    "2": "twins: functions and types that differ only in a type, a size or a constant",
    "3": "loops that count an index by hand",
    "4": "equality, order, copying, conversion and printing by hand",
    "5": "facts in three contracts or more, operands that always travel together",
    "6": "buffers with a length beside them, parallel arrays, searches by hand, arenas of indices",
    "7": "switches on which step to run, tables of functions",
    "8": "proofs: files Answers.antt, laws that nothing cites",
}

PATTERNS = [
    ("1.1", "own enum of two cases, one or both with a value: Option or Result under another name",
     "two cases that are a choice of the rules and no Option are counted too", lambda t: at(two_cased(t))),
    ("1.2", "bare case for nothing (None, Nothing, Missing, Absent, No..) in an own enum of three cases or more", "goes by the names of cases",
     lambda t: [(x.file, p) for x in more_cased(t) for name, held, p in x.parts if is_nothing(name, held)]),
    ("1.3", "yes/no field beside other fields, but of the stored records (Node, Declaration, Link)",
     "whether the other fields hang on it is not looked at: a yes/no that is data is counted too; a number that is 0 for nothing (`removed`, `detail`) is not found; the records go by name",
     lambda t: [(x.file, p) for x, _, p in flags(t)]),
    ("1.4", "field that is an answer (Result, or an enum of 1.1 that holds an Error or a Refusal) beside a field that is no kernel",
     "an answer beside a kernel alone, as in Outcome, is the form that callers want, and is left out", lambda t: [(x.file, p) for x, _, p in answers_beside(t)]),
    ("1.5", "function that makes a plain number of a value of an own enum", "one with a second operand; a From, and what a derive writes, are left out", lambda t: at(to_number(t))),
    ("1.6", "`match` with literal numbers for cases", "a match on a true number or a byte of a text is counted too; a From or TryFrom is left out; chains of ifs are in 1.8 and 7.3",
     lambda t: [(file, p) for file, p, arms in t.matches if any(re.match(r"[0-9]", left) for left, _ in arms)
                and not within([f for f in t.functions if is_from(f)], file, p)]),
    ("1.7", "operand or field that holds a number for a kind, a test or a refusal, and function that gives or takes one",
     "goes by names: " + ", ".join(NAMES["kinds"] + NAMES["kind_functions"]), kind_operands),
    ("1.8", "comparison of such a number with a literal one", "goes by names: " + NAMES["kind_words"].replace("|", ", ") + "; the value of a call is not found", kinds_compared),
    ("1.9", "field `kind` that holds an own enum of bare cases and says which of two or more other fields are meant", "goes by the name of the field",
     lambda t: [(x.file, p) for x, _, p in kinds_beside(t)]),
    ("1.a", "case of an enum of 1.1 in a pattern", "an enum under another name", lambda t: cases_named(t, two_cased(t))[0]),
    ("1.b", "case of an enum of 1.1 made", "the same; one that a function makes (`refused(..)`)", lambda t: cases_named(t, two_cased(t))[1]),
    ("1.c", "case for nothing (1.2) in a pattern or made", "the same", lambda t: sum(cases_named(t, more_cased(t), is_nothing), [])),
    ("1.d", "struct of 1.3, 1.4 or 1.9 made", "one made by a function", flagged_made),
    ("1.e", "flag of 1.3 read", "flags whose name a field has that is no flag", flags_read),
    ("1.f", "refusal handed on by hand, where `?` would: `if let E::Case(x) = .. { return .. E::Case(x) .. }`", "one handed on by a `match` or by a function that wraps it",
     lambda t: t.find(r"\bif\s+let\s+(?:\w+::)*(\w+)\((\w+)\)\s*=\s*[^{;]*\{\s*return\b[^;]*\b\1\(\2\)")),
    ("1.g", "`?`, and `Option<..>` or `Result<..>` as a type", "", lambda t: t.find(r"\w\)?\?\s*[;.)]|\b(?:Option|Result)<")),

    ("2.1", "function whose body has the shape of another's, with names, types, sizes and literals blanked (from 16 words on); from 30 words on, four fifths of its runs of five words",
     "short functions; twins spelled in another order; functions alike by chance, as tables of words, are counted too", lambda t: at(f for g in twin_functions(t) for f in g)),
    ("2.2", "struct or enum whose fields or cases all stand in another one, or that one; structs of arrays and numbers alike but for types and sizes",
     "types alike under other names of fields or cases; a part of a larger type that is meant to be one is counted too", lambda t: at(twin_types(t))),
    ("2.3", "function or type of a row of twins known by name, where two or more of the row are declared",
     "goes by the names at the head of the script: a renamed twin is not found, and a new one by 2.1 and 2.2 alone", lambda t: at(known_twins(t))),
    ("2.a", "stretch of lines made of runs of eight or more whose shape stands in another place too (imports and comments passed over), overlapping ones as one",
     "shorter repeats, and runs in more than twelve places; lists of cases and fields are alike by shape alone", repeated_lines),

    ("3.1", "`while` whose own body adds a literal to a number or takes one away (`i += 1`): an index or a count kept by hand",
     "an index that another function steps on; of a loop in a loop each counts", lambda t: places(counted(t))),
    ("3.a", "of these, one that reads or writes the place of what it counts (`xs[i]`)", "an index that is handed to a function", lambda t: places(indexing(t))),
    ("3.b", "walk of a chain: `while` whose condition names what its body reads from an array (`c = next[i]`), so that no index is counted", "a walk by way of a function",
     lambda t: places(walks(t))),
    ("3.c", "any other `while`", "", lambda t: places(x for x in t.loops if not re.search(STEP, x[3]) and x not in walks(t))),
    ("3.d", "`for` loop", "", lambda t: t.find(r"\bfor\s+[^<{;]*?\bin\b")),
    ("3.e", "line with an iterator (`.iter()`, `.iter_mut()`, `.into_iter()`, `.bytes()`, `.chars()`, `.chunks(..)`, `.lines()`)", "chains that begin in another way",
     lambda t: t.find(r"\.(?:iter|iter_mut|into_iter|bytes|chars|lines)\(\)|\.chunks\w*\(")),

    ("4.1", "equality by hand: function that gives a yes/no and compares one field of two of its operands, or is called same or same_..",
     "one that takes its operands apart first and is called otherwise", lambda t: at(equalities(t))),
    ("4.2", "equality by hand in place: key and realm each compared with something that is no literal, on one line outside of 4.1", "goes by the names of a port's fields; one over two lines",
     equality_in_place),
    ("4.3", "test for one case of an own enum: function that is one `match` with `true` and `false` for arms", "a test by `if let`, or in place", lambda t: at(case_tests(t))),
    ("4.4", "test for a blank record", "goes by the name is_blank_..", lambda t: at(blank_tests(t))),
    ("4.5", "order by hand: function that compares one field of two of its operands by `<`; `impl` of Ord or PartialOrd", "order that is computed in place",
     lambda t: at(fields_compared(t, "<=?")) + t.find(r"^\s*impl\b[^{]*\b(?:Partial)?Ord\s+for\b")),
    ("4.6", "conversion by hand: number made of an own enum (1.5), own enum of numbers, or number of a number by a function of one expression with `as`",
     "one with a further operand; `as` in place; a From or TryFrom is left out", lambda t: at(to_number(t) + from_number(t) + casts(t))),
    ("4.7", "function that turns a case into the case of that name of another enum (`A::Of(p) => B::Of(..)`)", "one that renames cases",
     lambda t: at(f for f in t.functions if re.search(r"\b(\w+)::(\w+)\b(?:\([^)]*\))?\s*=>\s*(?!\1\b)\w+::\2\b", f.body))),
    ("4.8", "value copied field by field: struct written out with two or more fields `f: x.f` of one x", "copies with other names of fields, or by way of locals", field_copies),
    ("4.9", "function that only gives a field of its operand, as it is or by `as`", "one whose operand is self", lambda t: at(getters(t))),
    ("4.10", "printing by hand: function that is given a buffer of bytes (`out`) and a value of an own type, but whole states and what is read (Kernel, Player, State, Line, Call)",
     "printers whose buffer has another name; the parts of a kernel printed from the kernel; a value that a question is about is counted too; the types left out go by name",
     lambda t: at(printers(t))),
    ("4.a", "call of a function of 4.1, 4.3 or 4.4", "a call through another name", lambda t: t.calls(equalities(t) + case_tests(t) + blank_tests(t))),
    ("4.b", "call of a function that makes a number of an own enum, or an own enum of numbers", "the same", lambda t: t.calls(to_number(t) + from_number(t))),
    ("4.c", "field copied into a local of its name (`let x = y.x;`)", "copies under another name", lambda t: t.find(r"\blet\s+(?:mut\s+)?(\w+)\s*=\s*(?:\w+\.)+\1\s*;")),
    ("4.d", "line with a call that puts bytes at a place of a buffer (`let at = f(out, at, ..)`)", "goes by the names of buffers and places: out, said, text; at, next, written, 0",
     lambda t: t.find(r"\b\w+\(\s*(?:rt,\s*)?(?:&mut\s+)?(?:%s),\s*(?:%s)\b" % NAMES["buffers"])),
    ("4.e", "derive of PartialEq; `impl` of Display, Debug, Default, From, TryFrom or PartialEq; `write!` and `writeln!`", "",
     lambda t: t.find(r"#\[derive\([^)]*\bPartialEq\b|^\s*impl\b[^{;]*\b(?:Display|Debug|Default|From|TryFrom|PartialEq)\b[^{;]*\bfor\b|\bwrite(?:ln)?!\s*[(]")),

    ("5.1", "contract that states a fact or a premise which three or more contracts state word for word (the function's own operands blanked)",
     "the same fact in other words; a fact within a larger term", lambda t: [p for v in facts(t).values() for p in v]),
    ("5.2", "signature with two operands side by side that always travel together: so, by name and type, in three signatures or more, and in three fifths of the signatures that have either",
     "the same operands apart, in another order or under other names", lambda t: at(f for v in pairs(t).values() for f in v)),
    ("5.3", "signature with an array of a fixed size and a number (usize) behind it, but `id`, `owner`, `parent` and `place`: a table and its count",
     "a count that stands elsewhere; goes by the four names", lambda t: at(tables_and_counts(t))),
    ("5.a", "signature with two operands side by side that stand so in three signatures or more", "the same as 5.2", lambda t: at(f for v in side_by_side(t)[1].values() for f in v)),

    ("6.1", "array field of a struct that has a number (usize) too: an array with its count", "a number that is no count is counted too; in signatures: 5.3, and `out` with `at` in 5.2",
     lambda t: [(x.file, p) for x in t.structs if any(k == "usize" for _, k, _ in x.parts) for _, k, p in x.parts if re.match(r"\[.*;", k)]),
    ("6.2", "first part of a buffer up to a count (`&log[..n]`, `&log[0..n]`)", "a part up to a sum, or between two places",
     lambda t: t.find(r"&(?:mut\s+)?\w+\[\s*0?\s*\.\.\s*[a-z]\w*\s*\]")),
    ("6.3", "parallel arrays: struct with two or more arrays of one size, signature with two or more borrowed ones, function that makes two or more", "columns of unlike sizes, and slices",
     lambda t: at(parallel_arrays(t))),
    ("6.4", "search by hand: `while` of 3.1 that ends early, by `return` or `break` in an `if` of its own body",
     "a search that goes on to the end; a loop that ends where a buffer or a log does is counted too",
     lambda t: places(x for x in counted(t) if re.search(r"\bif\b[^{;]*\{[^{}]*\b(?:return|break)\b", x[3]))),
    ("6.5", "sorted list searched by hand: `while` that halves", "such a search in another form",
     lambda t: places(x for x in t.loops if re.search(r"\(\s*\w+\s*\+\s*\w+\s*\)\s*/\s*2|\bmid\b", x[3]))),
    ("6.6", "arena of indices: chain walked (3.b), built (`next[i] = first[b]; first[b] = i + 1`), or handed on (`first` and `next` in a signature)",
     "chains handed on under other names", arenas),

    ("7.1", "`match` on bare cases or numbers whose arms call three functions or more: a switch on which step to run",
     "a switch whose arms do their work in place, or call one function with other operands", lambda t: places(switches(t, True))),
    ("7.2", "the same on cases that hold operands", "a match that takes a value apart, as a printer has it, is counted too", lambda t: places(switches(t, False))),
    ("7.3", "switch by ifs: function that compares one operand (`x`, `x.y`) in two or more ifs with different numbers, literal or named",
     "ifs on different operands; a test of a range is counted too", lambda t: at(switches_by_ifs(t))),
    ("7.4", "own enum of bare cases that a `match` of 7.1 goes by, and Rule: a kind that stands for a step", "one that is switched on in another way; Rule goes by name",
     lambda t: at(step_kinds(t))),
    ("7.5", "table of functions: `fn(..)` as a type", "functions handed over as type parameters, which are no table; a table of values by number", lambda t: t.find(r"(?<!\w)fn\s*\(")),

    ("8.1", "file Answers.antt under proofs/: a function with goals that do not close alone", "what such a proof needs elsewhere", lambda t: [(f, 0) for f in t.answers]),
    ("8.2", "law that nothing cites: `pub` lemma under proofs/, outside of Theorems, whose name stands, as a word, in no .antt or .rt file but in its own text and in imports",
     "a law whose name another law, a function or a local has too; laws that are not `pub`; found by words, the checker was not asked", lambda t: idle(t, False)),
    ("8.a", "of these, one that README.md or docs/ names", "", lambda t: idle(t, False, True)),
    ("8.b", "the same as 8.2 under proofs/Theorems, and named by README.md or docs/: what is claimed in the end", "", lambda t: idle(t, True, True)),
    ("8.c", "the same under proofs/Theorems, and named by no page: a claim of which a page names the statement alone, or none, or a lemma that is needed no more",
     "which of these is not told", lambda t: idle(t, True, False)),
    ("8.d", "line of a file Answers.antt", "", lambda t: all_lines(t.answers)),
    ("8.e", "line of any file under proofs/", "", lambda t: all_lines(t.proofs)),
]

# what a listing says beside the places, with their numbers
DETAILS = {
    "2.1": lambda t: [(len(g), ", ".join(f"{f.file.crate} {f.name}" for f in g)) for g in twin_functions(t)],
    "5.1": lambda t: [(len(v), k) for k, v in facts(t).items()],
    "5.2": lambda t: [(len(v), ", ".join(k)) for k, v in pairs(t).items()],
}


def details(tree, number):
    return sorted(DETAILS[number](tree), key=lambda x: (-x[0], x[1])) if number in DETAILS else []


def crates(rows):
    return ", ".join(f"{c} {n}" for c, n in sorted(collections.Counter(f.crate for f, _ in rows).items(), key=lambda x: (-x[1], x[0])))


def once(rows):
    """The places, each line once, in order."""
    rows = {(f.path, f.line(p)): (f, p) for f, p in rows}
    return [rows[k] for k in sorted(rows)]


def main(words):
    root = pathlib.Path(".").resolve()
    if not (root / "crates").is_dir():
        sys.exit("run at the top of a checkout: there is no folder crates here")
    tree = Tree(root)
    found = [(number, what, misses, once(function(tree))) for number, what, misses, function in PATTERNS]
    in_point = {p: once(x for number, _, _, rows in found if re.fullmatch(p + r"\.\d+", number) for x in rows) for p in POINTS}
    if "--markdown" in words:
        print("| point | what the patterns are | places | crates |\n|---|---|---|---|")
        for point, what in POINTS.items():
            print(f"| {point} | {what} | {len(in_point[point])} | {crates(in_point[point])} |")
        print("\n| pattern | what it is | places | crates | can miss, or counts too |\n|---|---|---|---|---|")
        for number, what, misses, rows in found:
            print(re.sub(r"\|  +(?=\|)", "| ", f"| {number} | {what} | {len(rows)} | {crates(rows)} | {misses} |"))
        print("\n| pattern | the fact, or the operands | places |\n|---|---|---|")
        for number in ("5.1", "5.2"):
            for n, says in details(tree, number):
                print(f"| {number} | `{says}` | {n} |")
        return
    wanted = {w for w in words if not w.startswith("--")}
    for point, says in POINTS.items():
        if wanted and not any(w.split(".")[0] == point for w in wanted):
            continue
        print(f"{point}. {says}: {len(in_point[point])} ({crates(in_point[point])})")
        for number, what, _, rows in found:
            if number.split(".")[0] != point or wanted and not {point, number} & wanted:
                continue
            print(f"  {number} {what}: {len(rows)} ({crates(rows)})")
            if "--list" in words and number not in ("8.d", "8.e"):
                for f, p in rows:
                    print(f"      {f.path}:{f.line(p)}: {f.lines[f.line(p) - 1].strip()}")
                for n, says_too in details(tree, number):
                    print(f"    {n:4} {says_too}")


if __name__ == "__main__":
    main(sys.argv[1:])
