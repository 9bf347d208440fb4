#!/usr/bin/env python3
"""extract.py LIB_RS OUT_RS: plain Rust of lib.rs's executable functions.

Bodies stay token for token. What goes: comments, specification functions, contract clauses, the proof block,
and the fragments of invariants and clauses that the supplied text has left standing. Anything missing or
unexpected ends with status 1 and writes nothing. The output needs a method `set` on Vec (src/reference.rs).
"""
import hashlib
import re
import sys

# The 34 executable functions of `impl Kernel`, in the order of the text.
FUNCTIONS = """episode_generation check_provisions new binding_records identity_slots declaration_records
compact_declarations compact_bindings contains phase retired cleanup_started ids children update_node
dependency_declared declare_provision provision_reserved release_provision configure_pending_dependencies
check_insert insert resolve target committed begin check_iteration finish leave leave_if_changed retire
begin_cleanup finish_cleanup remove""".split()
TYPES = "Phase Error Port Binding Node Declaration Link Kernel".split()
# What the supplied text has left standing of its proofs, by kind and count.
LEFTOVERS = {"stray invariant": 3, "orphan clause end": 2, "proof block": 1}
# The words and signs of the specification language: none may stay in the output.
SPEC_WORDS = set("""spec proof ghost tracked closed open requires ensures invariant decreases recommends forall
exists choose assert assume old final int nat trigger verifier refinement Seq ISet IMap Structural Ghost Tracked
paper wf safety_wf""".split())
SPEC_SIGNS = {"@", "#", "==>", "<==>", "&&&", "|||", "=~=", "==="}
# Words that no fragment of an invariant has.
STATEMENT_WORDS = {"while", "return", "mut", "push", "set", "if", "match", "fn", "+="}

TOKEN = re.compile(
    r"""(?P<space>\s+)|(?P<comment>//[^\n]*)
    |(?P<word>[A-Za-z_][A-Za-z0-9_]*)|(?P<number>[0-9][A-Za-z0-9_]*)
    |(?P<sign><==>|==>|=~=|===|&&&|\|\|\||::|->|=>|==|!=|<=|>=|&&|\|\||\+=|-=|[-+*/%!<>=.,;:?&|@\#(){}\[\]])""",
    re.X)
CLOSES = {"(": ")", "[": "]", "{": "}"}


def fail(message):
    sys.exit(f"extract.py: {message}")


class Token:
    """A token, the blank space before it, and its line."""

    def __init__(self, text, space, line):
        self.text, self.space, self.line = text, space, line


def tokens_of(text):
    """The tokens of a text; comments are left out."""
    found, at, space, line = [], 0, "", 1
    while at < len(text):
        m = TOKEN.match(text, at)
        if not m:
            fail(f"line {line}: no token that is known here: {text[at:at + 20]!r}")
        piece = m.group()
        if m.lastgroup == "space":
            space += piece
        elif m.lastgroup != "comment":
            found.append(Token(piece, re.sub(r"\n\s*\n", "\n", space), line))
            space = ""
        line += piece.count("\n")
        at = m.end()
    return found


class Reader:
    """A place in a list of tokens, and the tokens kept so far."""

    def __init__(self, tokens):
        self.tokens, self.at, self.kept = tokens, 0, []
        self.removed = dict.fromkeys(LEFTOVERS, 0)

    def text(self, ahead=0):
        return self.tokens[self.at + ahead].text if self.at + ahead < len(self.tokens) else ""

    def wrong(self, message):
        line = self.tokens[min(self.at, len(self.tokens) - 1)].line
        fail(f"line {line}: {message}, at {self.text()!r}")

    def skip(self, *expected):
        """Leaves out the expected tokens, or one token of any kind, and says the last."""
        for word in expected or [None]:
            if not self.text() or word not in (None, self.text()):
                self.wrong(f"expected {word or 'more'!r}")
            self.at += 1
        return self.tokens[self.at - 1].text

    def take(self, *expected):
        """Keeps the expected tokens, or one token of any kind, and says the last."""
        start = self.at
        self.skip(*expected)
        self.kept += self.tokens[start:self.at]
        return self.kept[-1].text

    def since(self, start):
        return [t.text for t in self.tokens[start:self.at]]


class Conditions(Reader):
    """First pass: every loop's condition is followed by its body, and no longer by the rest of an invariant."""

    def run(self):
        while self.text():
            if self.take() == "while":
                self.condition()
                if self.text() != "{":
                    self.stray_invariant()
        return self.kept

    def condition(self):
        """`NAME < NAME`, where the second may be a path and end in a call without operands."""
        self.take()
        self.take("<")
        self.take()
        while self.text() == ".":
            self.take(".")
            self.take()
        if self.text() == "(" and self.text(1) == ")":
            self.take("(", ")")

    def stray_invariant(self):
        """Leaves out what stands between a condition and the brace that follows a comma."""
        start = self.at
        while not (self.text() == "{" and self.tokens[self.at - 1].text == ","):
            if self.text() in STATEMENT_WORDS:
                self.wrong("a loop's condition that is not known here")
            self.skip()
        fragment = self.since(start)
        if fragment != ["}", ","] and not {"forall", "&&&"} & set(fragment):
            self.wrong("a loop's condition that is not known here")
        self.removed["stray invariant"] += 1


class Items(Reader):
    """Second pass: the records and the executable functions."""

    def __init__(self, tokens):
        super().__init__(tokens)
        self.functions, self.types, self.specifications = [], [], []

    def run(self):
        """What stands in `verus! { .. }`; around it only `use` and `pub mod` lines."""
        self.outside()
        self.skip("verus", "!", "{")
        while self.text() != "}":
            self.item()
        self.skip("}")
        self.outside()
        if self.text():
            self.wrong("expected the end")
        return self.kept

    def outside(self):
        """Leaves out `use ..;`, `pub mod ..;` and the test module's line."""
        while self.text() in ("use", "pub", "#", "mod"):
            if self.text() == "#":
                self.skip("#")
                self.skip_group()
            elif self.text() == "use":
                while self.skip() != ";":
                    pass
            else:
                if self.text() == "pub":
                    self.skip("pub")
                self.skip("mod")
                self.skip()
                self.skip(";")

    def end_of_group(self):
        """The place past the bracket that closes the one that stands here."""
        stack = []
        for at in range(self.at, len(self.tokens)):
            t = self.tokens[at].text
            if t in CLOSES:
                stack.append(CLOSES[t])
            elif t in CLOSES.values() and t != stack.pop():
                break
            if not stack:
                return at + 1
        self.wrong("a bracket is not closed")

    def skip_group(self):
        start = self.at
        self.at = self.end_of_group()
        return self.since(start)

    def take_group(self):
        end = self.end_of_group()
        while self.at < end:
            self.take()

    def skip_clauses(self):
        """Leaves out clauses, up to the body: the first brace, outside brackets, that follows a comma."""
        while not (self.text() == "{" and self.tokens[self.at - 1].text == ","):
            if self.text() in STATEMENT_WORDS - {"if", "match", "set"}:
                self.wrong("clauses without a body")
            if self.text() in CLOSES:
                self.skip_group()
            else:
                self.skip()

    def item(self):
        ahead = 1 if self.text() == "pub" else 0
        if self.text() == "#":
            self.attribute()
        elif self.text(ahead) in ("enum", "struct"):
            self.types.append(self.text(ahead + 1))
            while self.text() != "{":
                self.take()
            self.take_group()
        elif self.text(ahead) in ("open", "closed", "spec"):
            self.specification()
        elif self.text(1) == "Default":
            self.default()
        else:
            self.take("impl", "Kernel", "{")
            while self.text() != "}":
                self.member()
            self.take("}")

    def attribute(self):
        """Keeps a derive, without what only the prover knows; leaves out the prover's own."""
        space = self.tokens[self.at].space
        self.skip("#")
        group = self.skip_group()
        if group[1] == "derive":
            names = [n for n in group[3:-2] if n not in (",", "Structural")]
            self.kept.append(Token(f"#[derive({', '.join(names)})]", space, 0))
        elif group[1] != "verifier":
            self.wrong("an attribute that is not known here")

    def default(self):
        """Default is left out: it is only another name of `new`."""
        self.skip("impl", "Default", "for", "Kernel")
        if " ".join(self.skip_group()) != "{ fn default ( ) -> Self { Self :: new ( ) } }":
            self.wrong("Default is not what it was")

    def member(self):
        ahead = 1 if self.text() == "pub" else 0
        if self.text() == "#":
            self.attribute()
        elif self.text(ahead) in ("open", "closed", "spec"):
            self.specification()
        elif self.text() == "else":
            self.orphan()
        else:
            self.function()

    def specification(self):
        """Leaves out a specification function; one with statements is none."""
        while self.text() in ("pub", "open", "closed"):
            self.skip()
        self.skip("spec", "fn")
        self.specifications.append(self.skip())
        while self.text() != "{":
            if self.text() in CLOSES:
                self.skip_group()
            else:
                self.skip()
        if {"while", "return", "mut"} & set(self.skip_group()):
            self.wrong("a specification function with statements")

    def orphan(self):
        """Leaves out what is left of clauses whose function is gone, with its empty body."""
        self.skip_clauses()
        if self.skip_group() != ["{", "}"]:
            self.wrong("an orphan clause end with a body")
        self.removed["orphan clause end"] += 1

    def function(self):
        """An executable function: its signature with a plain result type, and its body."""
        if self.text() == "pub":
            self.take("pub")
        self.take("fn")
        self.functions.append(self.take())
        self.take_group()
        self.take("->")
        self.result_type()
        if self.text() in ("requires", "ensures"):
            self.skip_clauses()
        if self.text() != "{":
            self.wrong("expected a body")
        self.body()

    def result_type(self):
        """`(name: Type)` becomes `Type`."""
        end = self.end_of_group()
        self.skip("(")
        self.skip()
        self.skip(":")
        while self.at < end - 1:
            self.take()
        self.skip(")")

    def body(self):
        """A body, token for token, without the proof block."""
        end = self.end_of_group()
        while self.at < end:
            if self.text() == "proof":
                self.skip("proof")
                self.skip_group()
                self.removed["proof block"] += 1
            else:
                self.take()


def check(items, removed):
    """Every function and record is there once, in order; the leftovers are those known; no spec word stays."""
    if items.functions != FUNCTIONS or len(FUNCTIONS) != 34:
        fail(f"the executable functions are not the 34 known ones: {set(FUNCTIONS) ^ set(items.functions) or 'order'}")
    if items.types != TYPES:
        fail(f"the records are not those known: {items.types}")
    if removed != LEFTOVERS:
        fail(f"the leftovers are not those known: {removed}")
    for token in items.kept:
        if token.text in SPEC_WORDS or token.text in SPEC_SIGNS:
            fail(f"line {token.line}: {token.text!r} of the specification language is left")


def main():
    if len(sys.argv) != 3:
        fail("use: extract.py LIB_RS OUT_RS")
    with open(sys.argv[1], encoding="utf-8") as source:
        text = source.read()
    conditions = Conditions(tokens_of(text))
    items = Items(conditions.run())
    items.run()
    removed = {kind: conditions.removed[kind] + items.removed[kind] for kind in LEFTOVERS}
    check(items, removed)
    with open(sys.argv[2], "w", encoding="utf-8") as out:
        out.write("// Made by extract.py; never committed." + "".join(t.space + t.text for t in items.kept) + "\n")
    digest = hashlib.sha256(text.encode()).hexdigest()
    print(f"original: {len(items.functions)} functions, sha256 {digest}")
    print("left out: " + ", ".join(f"{n} {kind}" for kind, n in removed.items())
          + f", {len(items.specifications)} specification functions")


main()
