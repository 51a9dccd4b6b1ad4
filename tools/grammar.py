#!/usr/bin/env python3
"""Makes the generated files of crates/source_grammar and crates/source_words of tools/source.ebnf.

    python3 tools/grammar.py

Nothing rests on this script: what it writes is proved to state the grammar of the lines in specs/SourceGrammar.antt. It names a rule that is not LL(1), or that no plan brings to an end.
"""
import os
import re
import sys
import textwrap

sys.setrecursionlimit(10000)
TOP = os.path.dirname(os.path.dirname(os.path.abspath(__file__)))
CRATE = os.path.join(TOP, "crates", "source_grammar")
WORDS_CRATE = os.path.join(TOP, "crates", "source_words")
MADE = "Made by `python3 tools/grammar.py` of tools/source.ebnf."
# The kinds of tokens that have no text of their own. The first of them, the keywords and the marks are in the order of `TokenKind` of crates/rs_tokens.
KINDS = {"identifier": "Identifier", "_": "Underscore", "lifetime": "Lifetime", "integer": "Integer", "string": "StringLiteral"}
LAST_KINDS = {"static_lifetime": "StaticLifetime"}
# The terminals that have another name than the variant of `TokenKind`.
TOKEN_KINDS = {"Identifier": "Ident", "Integer": "Int", "StringLiteral": "Str", "KwSelfValue": "KwSelf", "Ampersand": "And", "Bar": "Or", "Hash": "Pound"}
NAMED_LINES = ("Source", "WholeTerm", "AfterTerm", "AfterPattern", "AfterName", "ImplBody", "ImplItems", "Statements", "StatementsRest", "LetValue", "LetEnd", "WhereBounds")
CLASSES_OF_CODE = ("Name", "LeftOutToken", "OtherRoot", "BoundOpening")
BRACKETS = {"(": ")", "[": "]", "{": "}"}
FIRST_CLASS = 128
# The plan of these nonterminals is not their empty alternative: in a head a bare `return` has an operand.
NEEDED = {"HeadReturnValue"}


# -- the text

def camel(word):
    return "".join(part[0].upper() + part[1:] for part in word.split("_") if part)


def read_text(path):
    """The terminals by their words, in the order of their numbers; the classes of kinds by name; the lines: (group, name, text); and the action of each line, with whether it is for several parts."""
    terminals, words, classes, lines, actions, group = {}, [], {}, [], [], None
    for row in open(path, encoding="utf-8"):
        row = row.rstrip("\n")
        if row.startswith("## "):
            group = row[3:]
        elif row and not row.startswith("#"):
            name, text = row.split(" = ", 1)
            if name == "keywords":
                terminals.update(KINDS)
                special = {"self": "SelfValue", "Self": "SelfType"}
                terminals.update({w: "Kw" + special.get(w, camel(w)) for w in text.split()})
            elif name == "marks":
                parts = text.split()
                terminals.update(zip(parts[::2], parts[1::2]))
            elif name == "words":
                words = text.split()
                terminals.update({w: "Word" + camel(w) for w in words})
                terminals.update(LAST_KINDS)
            elif name.startswith("class "):
                classes[name[6:]] = (group, members(text.split(), terminals, words), text.split()[0])
                group = None
            else:
                text, how, action = re.fullmatch(r"(.*?)(?: =>(\+?) (\w+))?", text).groups()
                actions += [(action, how == "+") if action else None for _ in modes(name, text)]
                lines += [(group if i == 0 else None, n, t) for i, (n, t) in enumerate(modes(name, text))]
                group = None
    return terminals, classes, lines, actions


def members(parts, terminals, words):
    """The kinds of a class, by their words."""
    every = {"names": ["identifier"] + words, "any": [w for w in terminals if w not in list(BRACKETS) + list(BRACKETS.values())]}
    if parts[0] not in every:
        return parts
    more = parts[parts.index("with") + 1:] if "with" in parts else []
    less = parts[parts.index("without") + 1:] if "without" in parts else []
    return [w for w in every[parts[0]] if w not in less] + more


def modes(name, text):
    """The lines that one line stands for."""
    if "<m>" in name:
        marks = [("", ""), ("Head", "Head"), ("Statement", "")]
    elif "<t>" in name:
        marks = [("", ""), ("Head", "Head"), ("Logic", "")]
    else:
        return [(name, text)]
    made = []
    for mode, later in marks:
        t = re.sub(r"(\w+)<[mt]>", lambda x: mode + x.group(1), text)
        t = re.sub(r"(\w+)<[nu]>", lambda x: later + x.group(1), t)
        made.append((mode + name[:-3], t))
    return made


def in_order(parts):
    form = parts[-1]
    for part in reversed(parts[:-1]):
        form = ("seq", part, form)
    return form


def levelled(parts):
    """The parts, where those from a bracket to its other one are one part, a level deeper."""
    made = []
    for part in parts:
        made.append(part)
        if part[0] == "t" and part[1] in BRACKETS.values():
            for i in range(len(made) - 1, -1, -1):
                if made[i][0] == "t" and BRACKETS.get(made[i][1]) == part[1]:
                    made[i:] = [("level", in_order(made[i:]))]
                    break
    return made


def parsed(text, classes):
    """The form of a line: ('empty',), ('t', word), ('c', class), ('n', name), ('seq', a, b), ('or', a, b), ('opt', a), ('many', a), ('list', a), ('level', a) or ('chain', a)."""
    tokens = re.findall(r'"[^"]+"|list\(|level\(|chain\(|\w+|[\[\]{}()|]', text)
    at = 0

    def peek():
        return tokens[at] if at < len(tokens) else None

    def take(wanted=None):
        nonlocal at
        token = peek()
        assert wanted in (None, token), (text, wanted, tokens[at:])
        at += 1
        return token

    def alternatives():
        form = sequence()
        if peek() == "|":
            take()
            return ("or", form, alternatives())
        return form

    def sequence():
        parts = [part()]
        while peek() is not None and peek() not in ("|", "]", ")", "}"):
            parts.append(part())
        return in_order(levelled(parts))

    def part():
        token = take()
        for opening, closing, kind in (("list(", ")", "list"), ("level(", ")", "level"), ("chain(", ")", "chain"), ("[", "]", "opt"), ("{", "}", "many"), ("(", ")", None)):
            if token == opening:
                form = alternatives()
                take(closing)
                return (kind, form) if kind else form
        if token == "empty":
            return ("empty",)
        if token[0] == '"' or token in KINDS:
            return ("t", token.strip('"'))
        return ("c", token) if token in classes else ("n", token)

    form = alternatives()
    assert at == len(tokens), (text, tokens[at:])
    return form


# -- the alternatives, as `expanded` of grammar_tables/specs/Ebnf.antt gives them

class Expansion:
    """Bodies, and marks, of all nonterminals; introduced ones are pairs of a mark and bodies."""

    def __init__(self, lines, terminals, classes):
        self.kind = {w: i for i, w in enumerate(terminals)}
        self.kind_of_class = {name: FIRST_CLASS + i for i, name in enumerate(classes)}
        self.number = {name: i for i, (_, name, _) in enumerate(lines)}
        free, made, introduced = len(lines), [], []
        for _, _, form in lines:
            mark = "Level" if form[0] == "level" else "Plain"
            own, new, free = self.alternatives(form[1] if mark == "Level" else form, [], free)
            made.append((mark, own))
            introduced += new
        made += introduced
        self.marks, self.bodies = [m for m, _ in made], [b for _, b in made]
        assert len(self.bodies) == free

    def symbol(self, form):
        return ("T", self.kind[form[1]]) if form[0] == "t" else ("T", self.kind_of_class[form[1]]) if form[0] == "c" else ("N", self.number[form[1]])

    def rest(self, free):
        return ("Plain", [[("T", self.kind[","]), ("N", free)], []])

    def alternatives(self, form, ss, free):
        kind = form[0]
        if kind == "empty":
            return [ss], [], free
        if kind in "tnc":
            return [[self.symbol(form)] + ss], [], free
        if kind == "seq":
            body, after, free = self.one_body(form[2], ss, free)
            own, new, free = self.alternatives(form[1], body, free)
            return own, after + new, free
        if kind == "or":
            a, x, free = self.alternatives(form[1], ss, free)
            b, y, free = self.alternatives(form[2], ss, free)
            return a + b, x + y, free
        if kind == "opt":
            a, x, free = self.alternatives(form[1], ss, free)
            return a + [ss], x, free
        if kind in ("chain", "level"):
            body, x, free = self.one_body(form, ss, free)
            return [body], x, free
        number = free + (kind == "list")
        a, x, after = self.alternatives(form[1], [("N", number)] + ss, number + 1)
        b, y, after = self.alternatives(form[1], [("N", number)], after)
        more = [self.rest(free)] if kind == "list" else []
        return a + [ss], [("Plain", b + [[]])] + more + x + y, after

    def one_body(self, form, ss, free):
        kind = form[0]
        if kind == "empty":
            return ss, [], free
        if kind in "tnc":
            return [self.symbol(form)] + ss, [], free
        if kind == "seq":
            body, after, free = self.one_body(form[2], ss, free)
            body, new, free = self.one_body(form[1], body, free)
            return body, after + new, free
        turn = [("N", free)] if kind in ("many", "chain") else [("N", free + 1)] if kind == "list" else []
        a, x, after = self.alternatives(form[1], turn, free + 1 + (kind == "list"))
        if kind == "or":
            b, y, after = self.alternatives(form[2], [], after)
            return [("N", free)] + ss, [("Plain", a + b)] + x + y, after
        if kind == "level":
            return [("N", free)] + ss, [("Level", a)] + x, after
        more = [self.rest(free)] if kind == "list" else []
        return [("N", free)] + ss, [("Chain" if kind == "chain" else "Plain", a + [[]])] + more + x, after


# -- what is computed of the alternatives

def first_sets(bodies, kinds_of):
    firsts = [[] for _ in bodies]
    for steps in range(1, 100):
        new = [sum((kinds_of(b[0][1]) if b[0][0] == "T" else firsts[b[0][1]] for b in alts if b), []) for alts in bodies]
        if any(len(f) > 2000 for f in new):
            sys.exit("left recursion")
        if new == firsts:
            return firsts, steps - 1
        firsts = new
    sys.exit("FIRST does not settle")


def depths_of(bodies):
    depths = [1] * len(bodies)
    for _ in range(100):
        depths = [1 + max(depths[b[0][1]] if b and b[0][0] == "N" else 0 for b in alts) for alts in bodies]
    return depths


class Plan:
    """A short text of each nonterminal, and the kinds that might go on with one."""

    def __init__(self, bodies, firsts, name, kinds_of):
        count = len(bodies)
        self.kinds_of = kinds_of
        self.alternative, self.rank, self.short = [0] * count, [0] * count, [None] * count
        for n, alts in enumerate(bodies):
            if [] in alts and name(n) not in NEEDED:
                self.alternative[n], self.short[n] = alts.index([]), []
        while True:
            found = [(n, self.best(alts)) for n, alts in enumerate(bodies) if self.short[n] is None]
            found = [(n, best) for n, best in found if best]
            if not found:
                break
            for n, (text, i, rank) in found:
                self.alternative[n], self.short[n], self.rank[n] = i, text, rank
        self.takes = [set(firsts[n]) if self.short[n] == [] and not bodies[n][self.alternative[n]] else set() for n in range(count)]
        self.bodies = bodies

    def text(self, symbols):
        return sum((self.kinds_of(s[1])[:1] if s[0] == "T" else self.short[s[1]] for s in symbols), [])

    def best(self, alts):
        made = []
        for i, b in enumerate(alts):
            if b and all(s[0] == "T" or self.short[s[1]] is not None for s in b):
                made.append((len(self.text(b)), i, 1 + max([self.rank[s[1]] for s in b if s[0] == "N"] + [0])))
        if not made:
            return None
        _, i, rank = min(made)
        return self.text(alts[i]), i, rank

    def settle(self):
        """Adds to `takes` what a last part takes, and gives the parts that take what follows them."""
        changed = True
        while changed:
            changed = False
            for n, alts in enumerate(self.bodies):
                for b in alts:
                    for i, s in enumerate(b):
                        if s[0] == "N" and not self.text(b[i + 1:]) and not self.takes[s[1]] <= self.takes[n]:
                            self.takes[n] |= self.takes[s[1]]
                            changed = True
        bad = []
        for n, alts in enumerate(self.bodies):
            for b in alts:
                for i, s in enumerate(b):
                    text = self.text(b[i + 1:]) if s[0] == "N" else []
                    if text and text[0] in self.takes[s[1]]:
                        bad.append((n, b, text[0]))
        return bad


def conflicts(bodies, firsts, plan, name, show, word):
    found = []
    for n, alts in enumerate(bodies):
        twice = sorted({k for k in firsts[n] if firsts[n].count(k) > 1})
        if twice:
            found.append("%s: several alternatives begin with %s" % (name(n), " ".join(map(word, twice))))
        if alts.count([]) > 1:
            found.append("%s: several empty alternatives" % name(n))
        found += ["%s: begins with a nullable nonterminal: %s" % (name(n), show(b)) for b in alts if b and b[0][0] == "N" and [] in bodies[b[0][1]]]
        if plan.short[n] is None:
            found.append("%s: derives no text" % name(n))
    if not found:
        found += ["%s: a part takes %s, which follows it: %s" % (name(n), word(k), show(b)) for n, b, k in plan.settle()]
    return found


# -- what is written

def wrapped(text, indent, width=200):
    return "\n".join(textwrap.wrap(text, width, initial_indent=indent, subsequent_indent=indent, break_long_words=False, break_on_hyphens=False))


def write(name, text, crate=CRATE):
    path = os.path.join(crate, name)
    os.makedirs(os.path.dirname(path), exist_ok=True)
    open(path, "w", encoding="utf-8").write(text.rstrip() + "\n")


def uses(path, names):
    """Lines that import the names, none of them too long."""
    made, row = [], []
    for name in names:
        if row and len(", ".join(row)) > 180:
            made.append(row)
            row = []
        row.append(name)
    return "\n".join("use %s.{%s}" % (path, ", ".join(r)) for r in made + [row])


def listed(items, show):
    return "(" + "".join(show(x) + " ∷ " for x in items) + "[])"


def symbol(s):
    return ("Terminal %d" if s[0] == "T" else "Nonterminal %d") % s[1]


def form_text(form, terminals, level=0):
    """The form as antt; `level` is 0 where alternatives may stand, 1 where a sequence may, and 2 where neither may."""
    kind = form[0]
    if kind == "empty":
        return "epsilon"
    if kind == "t":
        return terminals[form[1]]
    if kind in "nc":
        return form[1]
    if kind in ("seq", "or"):
        mark, here = (" · ", 1) if kind == "seq" else (" ∣ ", 0)
        text = form_text(form[1], terminals, here + 1) + mark + form_text(form[2], terminals, here)
        return "(%s)" % text if level > here else text
    word, inside = {"opt": "optional", "many": "repeated"}.get(kind, kind), form[1]
    if kind == "level" and bracketed(inside):
        word, inside = bracketed(inside)
    return "%s %s" % (word, form_text(inside, terminals, 2)) if inside[0] in "tnc" else "%s (%s)" % (word, form_text(inside, terminals))


def bracketed(form):
    """The word for these brackets, and what stands between them."""
    word = {"(": "parens", "[": "brackets", "{": "braces"}.get(form[1][1]) if form[0] == "seq" and form[1][0] == "t" else None
    parts = []
    while word and form[0] == "seq":
        parts.append(form[1])
        form = form[2]
    return (word, in_order(parts[1:])) if word and len(parts) > 1 and form[0] == "t" and form[1] == BRACKETS[parts[0][1]] else None


def used_words(forms):
    found = set()

    def go(form):
        if form[0] == "level" and bracketed(form[1]):
            go(bracketed(form[1])[1])
        elif form[0] in "tc":
            found.add(form[1])
        elif form[0] not in ("n", "empty"):
            for part in form[1:]:
                go(part)

    for form in forms:
        go(form)
    return found


def write_names(terminals, classes, lines):
    head = "use Rattle.grammar_tables.specs.Ebnf.{Form, %s}\n"
    out = ["-- The terminals, by the kinds of tokens, and behind them those that stand for a class of kinds. " + MADE, head % "terminal, separated, level, ◌·◌"]
    for i, (word, name) in enumerate(terminals.items()):
        out += ["-- %s" % (word.replace("_", " ") if word in {**KINDS, **LAST_KINDS} and word != "_" else "`%s`" % word), "abbrev pub %s : Form" % name, "%s = terminal %d\n" % (name, i)]
    for i, name in enumerate(classes):
        out += ["abbrev pub %s : Form" % name, "%s = terminal %d\n" % (name, FIRST_CLASS + i)]
    out += ["-- any number, with `,` between and perhaps behind the last", "abbrev pub list : Form → Form", "list a = separated %d a\n" % list(terminals).index(","),
            "-- a pair of brackets, and what stands between, one level deeper"]
    for word, (opening, closing) in zip(("parens", "brackets", "braces"), BRACKETS.items()):
        out += ["abbrev pub %s : Form → Form" % word, "%s a = level (%s · a · %s)\n" % (word, terminals[opening], terminals[closing])]
    write("specs/Terminals.antt", "\n".join(out))
    out = ["-- The nonterminals, by the lines of the grammar. " + MADE, head % "nonterminal"]
    for i, (_, name, _) in enumerate(lines):
        out += ["abbrev pub %s : Form" % name, "%s = nonterminal %d\n" % (name, i)]
    write("specs/Nonterminals.antt", "\n".join(out))


def write_classes(terminals, classes):
    names = ["identifier"] + [w for w, n in terminals.items() if n.startswith("Word")]
    chain = lambda words: "".join(terminals[w] + " ∷ " for w in words) + "[]"
    used = names + [w for name, (_, ws, _) in classes.items() for w in ws if len(ws) < 100] + list(BRACKETS) + list(BRACKETS.values()) + [";"]
    out = ["-- The classes of kinds, in the order of their terminals. " + MADE,
           "use Rattle.std.specs.Prelude.{ℕ, zero, suc, Bool, false, nat_eq, ◌||◌, if◌then◌else◌, List, [], ◌∷◌, ◌++◌, map}",
           "use Rattle.grammar_tables.specs.Ebnf.{Form, terminal, nonterminal, epsilon, optional, repeated, separated, chain, level, ◌·◌, ◌∣◌}",
           uses("Rattle.source_grammar.specs.Terminals", [n for w, n in terminals.items() if w in used]), """
-- the kind of the tokens that a terminal stands for, as a number
abbrev pub kind_of : Form → ℕ
kind_of (terminal k) = k
kind_of epsilon = 0
kind_of (nonterminal n) = 0
kind_of (a · b) = 0
kind_of (a ∣ b) = 0
kind_of (optional a) = 0
kind_of (repeated a) = 0
kind_of (separated k a) = 0
kind_of (chain a) = 0
kind_of (level a) = 0

abbrev pub kinds : List Form → List ℕ
kinds forms = map kind_of forms

abbrev pub stands_in : ℕ → List ℕ → Bool
stands_in k [] = false
stands_in k (j ∷ js) = nat_eq k j || stands_in k js

-- the kinds of the first list that are none of the second
abbrev pub without : List ℕ → List ℕ → List ℕ
without [] js = []
without (k ∷ ks) js = if stands_in k js then without ks js else k ∷ without ks js

abbrev pub below : ℕ → List ℕ
below zero = []
below (suc n) = below n ++ n ∷ []

-- a name is an identifier or a quoted word that is no keyword
abbrev pub names : List ℕ
names = kinds (
%s)

abbrev pub brackets : List ℕ
brackets = kinds (%s)

-- every token but the brackets
abbrev pub any : List ℕ
any = without (below %d) brackets

unfoldable pub classes : List (List ℕ)
classes =""" % (wrapped(chain(names), "    ").rstrip(), chain(list(BRACKETS) + list(BRACKETS.values())), len(terminals))]
    every = {"names": names, "any": members(["any"], terminals, [])}
    for i, (name, (group, words, base)) in enumerate(classes.items()):
        if base in every:
            less, more = [w for w in every[base] if w not in words], [w for w in words if w not in every[base]]
            text = "without %s (kinds (%s))" % (base, chain(less)) if less else base
            text = "(%s ++ kinds (%s))" % (text, chain(more)) if more else text
        else:
            text = "kinds (%s)" % chain(words)
        if group:
            out.append(wrapped("## " + group, "    -- ", 180))
        out += ["    -- " + name, wrapped(("∷ " if i else "") + text, "    ", 220)]
    out.append("    ∷ []")
    write("specs/Classes.antt", "\n".join(out))


def write_grammar(terminals, classes, lines, steps):
    words = used_words(form for _, _, form in lines)
    out = [
        "-- The whole grammar of sources, a line for each nonterminal. The sections are those of the Rust Reference. " + MADE,
        "use Rattle.std.specs.Prelude.{ℕ, List, [], ◌∷◌, get_or}",
        "use Rattle.grammar_tables.specs.declared.symbol.Mark.{Mark}",
        "use Rattle.grammar_tables.specs.declared.symbol.Mark.TheVariants.{Plain}",
        "use Rattle.grammar_tables.specs.Grammar.{Grammar}",
        "use Rattle.grammar_tables.specs.First.{first_sets, grammar_with}",
        "use Rattle.grammar_tables.specs.Ebnf.{Form, expanded, marked, epsilon, ◌·◌, ◌∣◌, optional, repeated, chain, level}",
        "use Rattle.source_grammar.specs.Classes.{classes}",
        uses("Rattle.source_grammar.specs.Terminals", [n for w, n in terminals.items() if w in words] + [c for c in classes if c in words] + ["list", "parens", "brackets", "braces"]),
        uses("Rattle.source_grammar.specs.Nonterminals", [name for _, name, _ in lines]),
        "", "unfoldable pub lines : List Form", "lines ="]
    for i, (group, name, form) in enumerate(lines):
        if group:
            out.append(wrapped("## " + group, "    -- ", 180))
        text = form_text(form, terminals)
        out += ["    -- " + name, wrapped(("∷ " if i else "") + "(%s)" % text, "    ", 220)]
    term = [name for _, name, _ in lines].index("WholeTerm")
    out += ["    ∷ []", "", "-- FIRST settles after so many steps", "abbrev pub steps : ℕ", "steps = %d" % steps,
            "", "unfoldable pub source_grammar : Grammar", "source_grammar = grammar_with classes (first_sets classes steps (expanded lines)) (expanded lines)",
            "", "-- what counts towards a limit at each nonterminal", "unfoldable pub source_marks : ℕ → Mark", "source_marks n = get_or (marked lines) n Plain",
            "", "-- a source is derived from the first line, and a term that stands alone from that of terms", "abbrev pub source_goal : ℕ", "source_goal = 0", "", "abbrev pub term_goal : ℕ", "term_goal = %d" % term]
    write("specs/SourceGrammar.antt", "\n".join(out))
    write("specs/Lib.antt", "pub mod Terminals\npub mod Classes\npub mod Nonterminals\npub mod SourceGrammar\npub mod LeftOut\npub mod Actions\npub mod Faults\npub mod Statements\n")


def write_lists(bodies, marks, class_kinds, firsts, depths, plan):
    def rows(items, show):
        return "\n".join(wrapped(("∷ " if i else "") + show(x), "    ") for i, x in enumerate(items)) + "\n    ∷ []"

    def numbers(items):
        return listed(items, str)

    def block(items, show, indent="    "):
        return wrapped(listed(items, show), indent).strip()

    write("proofs/Listed.antt", """-- What the lines of the grammar come to: the classes of kinds, and the alternatives and the mark of each nonterminal, by its number. %s
use Rattle.std.specs.Prelude.{ℕ, List, [], ◌∷◌}
use Rattle.grammar_tables.specs.declared.symbol.Mark.{Mark}
use Rattle.grammar_tables.specs.declared.symbol.Mark.TheVariants.{Plain, Level, Chain}
use Rattle.grammar_tables.specs.declared.symbol.Symbol.{Symbol}
use Rattle.grammar_tables.specs.declared.symbol.Symbol.TheVariants.{Terminal, Nonterminal}

unfoldable pub class_lists : List (List ℕ)
class_lists =
%s

unfoldable pub marks : List Mark
marks =
    %s

unfoldable pub listed : List (List (List Symbol))
listed =
%s
""" % (MADE, rows(class_kinds, numbers), block(marks, str), rows(bodies, lambda alts: listed(alts, lambda b: listed(b, symbol)))))
    write("proofs/Firsts.antt", """-- FIRST of each nonterminal, and its depth, by its number. %s
use Rattle.std.specs.Prelude.{ℕ, List, [], ◌∷◌}

unfoldable pub firsts : List (List ℕ)
firsts =
%s

unfoldable pub depths : List ℕ
depths =
    %s
""" % (MADE, rows(firsts, numbers), block(depths, str)))
    write("proofs/Plans.antt", """-- A plan that brings each nonterminal to an end. %s
use Rattle.std.specs.Prelude.{[], ◌∷◌}
use Rattle.grammar_tables.specs.PlanTest.{PlanLists}
use Rattle.source_grammar.proofs.Listed.{class_lists}

unfoldable pub plan : PlanLists
plan = record {
  classes = class_lists;
  alternatives =
      %s;
  ranks =
      %s;
  shorts =
      %s;
  takes =
      %s;
}
""" % (MADE, *(block(items, show, "      ") for items, show in
               ((plan.alternative, str), (plan.rank, str), (plan.short, numbers), ([sorted(t) for t in plan.takes], numbers)))))


SHAPE_GROUPS = ("Types", "Patterns and paths", "Terms of contracts")


def screaming(name):
    return re.sub(r"(?<=[a-z0-9])(?=[A-Z])", "_", name).upper()


def grouped_actions(rows, actions):
    """The actions of shapes and those of code, each with its lines."""
    found, group = {}, None
    for (head, name, text), action in zip(rows, actions):
        group = head or group
        if action:
            found.setdefault(action[0], []).append((group.startswith(SHAPE_GROUPS), "%s = %s" % (name, text)))
    groups = {"Shape": {}, "Code": {}}
    for action, lines in found.items():
        groups["Shape" if any(is_shape for is_shape, _ in lines) else "Code"][action] = [text for _, text in lines]
    return groups


def write_actions(rows, actions):
    groups = grouped_actions(rows, actions)
    code = lambda action: "Keep" if not action else "%s(%sAction::%s)" % (("Shape", "Shape", action[0]) if action[0] in groups["Shape"] else ("Code", "Code", action[0]))
    out = ["//! What is made of the parts of each line. " + MADE, "ghost use Rattle.std.specs.Prelude.{◌≡◌};", "ghost use Rattle.source_grammar.specs.Actions.{action_of, is_for_several};", ""]
    for kind, what in (("Shape", "types, patterns, paths and terms"), ("Code", "items, statements and expressions")):
        out += ["/// The actions of %s, each with its lines." % what, "#[derive(Clone, Copy)]", "pub enum %sAction {" % kind]
        for name, lines in groups[kind].items():
            out += ["    /// `%s`" % line for line in lines] + ["    %s," % name]
        out += ["}", ""]
    out += ["/// What is made of the parts of a line.", "#[derive(Clone, Copy)]", "pub enum Action {", "    /// Nothing: they stand among the parts of the line around.", "    Keep,", "    Shape(ShapeAction),", "    Code(CodeAction),", "}", ""]
    out.append(array("ACTIONS", "Action", ["Action::" + code(a) for a in actions], "The action of each line.").replace("pub const", "const"))
    out.append(array("SEVERAL", "bool", ["true" if a and a[1] else "false" for a in actions], "Whether the line is kept where it has one part.").replace("pub const", "const"))
    out += ["/// The action of the nonterminal; those that are no lines are kept.", "#[tactic(auto, unfolding(crate::specs::Actions::actions))]", "pub fn action_of(nonterminal: u16) -> Action", "    ensures { result ≡ action_of nonterminal }", "{",
            "    let nonterminal = nonterminal as usize;", "    let actions: &[Action] = &ACTIONS;", "    if nonterminal < actions.len() {", "        actions[nonterminal]", "    } else {", "        Action::Keep", "    }", "}", "",
            "/// Whether the nonterminal is kept where it has one part.", "#[tactic(auto, unfolding(crate::specs::Actions::several))]", "pub fn is_for_several(nonterminal: u16) -> bool", "    ensures { result ≡ is_for_several nonterminal }", "{",
            "    let nonterminal = nonterminal as usize;", "    let several: &[bool] = &SEVERAL;", "    if nonterminal < several.len() {", "        several[nonterminal]", "    } else {", "        false", "    }", "}"]
    write("src/action.rt", "\n".join(out))
    spec = lambda action: "Keep" if not action else ("Shape shapes.%s" if action[0] in groups["Shape"] else "Code codes.%s") % action[0]
    write("specs/Actions.antt", "\n".join([
        "-- What is made of the parts of each line, by the numbers of the lines. " + MADE,
        "use Rattle.std.specs.Prelude.{ℕ, Bool, true, false, List, [], ◌∷◌, get_or}",
        "use Rattle.source_grammar.specs.declared.action.Action.{Action}",
        "use Rattle.source_grammar.specs.declared.action.Action.TheVariants.{Keep, Shape, Code}",
        "use Rattle.source_grammar.specs.declared.action.ShapeAction.TheVariants as shapes",
        "use Rattle.source_grammar.specs.declared.action.CodeAction.TheVariants as codes", "",
        "unfoldable pub actions : List Action", "actions =", wrapped("".join(spec(a) + " ∷ " for a in actions) + "[]", "    "), "",
        "-- whether a line is kept where it has one part", "unfoldable pub several : List Bool", "several =", wrapped("".join(("true" if a and a[1] else "false") + " ∷ " for a in actions) + "[]", "    "), "",
        "abbrev pub action_of : ℕ → Action", "action_of n = get_or actions n Keep", "",
        "abbrev pub is_for_several : ℕ → Bool", "is_for_several n = get_or several n false"]))


def write_kinds(terminals):
    out = ["//! The kinds of tokens, by the numbers of their terminals. " + MADE, ""]
    for i, (word, name) in enumerate(terminals.items()):
        out += ["/// %s" % (word.replace("_", " ") if word in {**KINDS, **LAST_KINDS} and word != "_" else "`%s`" % word), "pub const %s: u8 = %d;" % (screaming(name), i)]
    write("src/kinds.rt", "\n".join(out))


def write_words(terminals):
    """What crates/source_words says of the terminals: those of the lexer's kinds, and the quoted words with theirs, which the code has by their first bytes."""
    of_kinds = [name for name in terminals.values() if not name.startswith("Word") and name not in LAST_KINDS.values()]
    variant = lambda name: TOKEN_KINDS.get(name, name)
    out = ["-- The kinds of tokens that have one whatever their text, by the lexer's kinds. " + MADE, "use Rattle.std.specs.Prelude.{ℕ}", "use Rattle.source_grammar.specs.Classes.{kind_of}",
           uses("Rattle.source_grammar.specs.Terminals", of_kinds), "use Rattle.rs_tokens.specs.declared.token.TokenKind.{TokenKind}", "use Rattle.rs_tokens.specs.declared.token.TokenKind.TheVariants as T", "",
           "unfoldable pub plain_kind : TokenKind → ℕ"] + ["plain_kind T.%s = kind_of %s" % (variant(name), name) for name in of_kinds]
    write("specs/TokenKinds.antt", "\n".join(out), WORDS_CRATE)
    quoted = {word: name for word, name in terminals.items() if name.startswith("Word")}
    out = ["-- The quoted words that are no keywords, with their kinds. " + MADE, "use Rattle.std.specs.Prelude.{ℕ, List, [], ◌∷◌, codes}", "use Rattle.source_grammar.specs.Classes.{kind_of}",
           uses("Rattle.source_grammar.specs.Terminals", quoted.values()), "", "unfoldable pub quoted : List (List ℕ × ℕ)", "quoted ="]
    out += ["    %s(codes \"%s\", kind_of %s)" % ("∷ " if i else "", word, name) for i, (word, name) in enumerate(quoted.items())] + ["    ∷ []"]
    write("specs/QuotedWords.antt", "\n".join(out), WORDS_CRATE)
    by_front = {}
    for word, name in quoted.items():
        by_front.setdefault(word[0], []).append((word, name))
    out = ["//! The quoted words that are no keywords, by their first bytes, with their kinds. " + MADE, "", "use source_grammar::kinds;", ""]
    for front, rows in sorted(by_front.items()):
        label = "UPPER_" + front if front.isupper() else front.upper()
        out += ["#[rattlefmt::skip]", "pub const FROM_%s: [(&str, u8); %d] = [" % (label, len(rows))] + ["    (\"%s\", kinds::%s)," % (word, screaming(name)) for word, name in rows] + ["];", ""]
    write("src/quoted_words.rt", "\n".join(out), WORDS_CRATE)


def write_lines(lines):
    out = ["//! The lines of the grammar that code names, by the numbers of their nonterminals. " + MADE]
    out += ["pub const %s: u16 = %d;" % (screaming(name), i) for i, (_, name, _) in enumerate(lines) if name in NAMED_LINES]
    write("src/lines.rt", "\n\n".join(out))


def write_class_numbers(classes):
    out = ["//! The classes of kinds that code names, by the numbers of their terminals. " + MADE]
    out += ["pub const %s: u8 = %d;" % (screaming(name), FIRST_CLASS + i) for i, name in enumerate(classes) if name in CLASSES_OF_CODE]
    write("src/classes.rt", "\n\n".join(out))


def array(name, kind, items, what):
    """A constant array; what would fill over 800 lines goes without blanks."""
    rows = wrapped(", ".join(items) + ",", "    ", 280)
    if rows.count("\n") > 800:
        rows = wrapped(", ".join(items) + ",", "", 360).replace(" ", "")
    return "/// %s\n#[rattlefmt::skip]\npub const %s: [%s; %d] = [\n%s\n];\n" % (what, name, kind, len(items), rows)


def write_arrays(bodies, marks, class_kinds, kinds_of, firsts, depths):
    symbols, ranges, offsets = [], [], [0]
    for alts in bodies:
        for body in alts:
            ranges.append((len(symbols), len(symbols) + len(body)))
            symbols += body[::-1]
        offsets.append(len(ranges))
    assert len(symbols) < 65536 and max(map(len, bodies)) < 255
    predictions = []
    for alts in bodies:
        row = [next((i for i, b in enumerate(alts) if not b), 255)] * 128
        for i, body in enumerate(alts):
            for k in ([] if not body else kinds_of(body[0][1]) if body[0][0] == "T" else firsts[body[0][1]]):
                assert k < 126
                row[k] = i
        predictions += row
    rust = ("Symbol::" + symbol(s).replace(" ", "(") + ")" for s in symbols)
    write("src/bodies.rt", "//! The bodies of the alternatives. %s\nuse grammar_tables::{BodyRange, Mark, Symbol};\n\n" % MADE
          + array("SYMBOLS", "Symbol", list(rust), "The bodies, each with its last symbol first.") + "\n"
          + array("BODIES", "BodyRange", ["BodyRange { from: %d, to: %d }" % r for r in ranges], "Where each body stands.") + "\n"
          + array("OFFSETS", "u16", list(map(str, offsets)), "The number of the first alternative of each nonterminal.") + "\n"
          + array("DEPTHS", "u8", list(map(str, depths)), "The depth of each nonterminal.") + "\n"
          + array("MARKS", "Mark", ["Mark::" + m for m in marks], "What counts at each nonterminal towards a limit.") + "\n"
          + array("MEMBERS", "bool", ["true" if k in ks else "false" for ks in class_kinds for k in range(128)], "Whether each kind is in each class."))
    write("src/predictions.rt", "//! The parse table. %s\n\n" % MADE + array("PREDICTIONS", "u8", list(map(str, predictions)), "The alternative that each kind predicts, for each nonterminal."))
    show = lambda items, f: wrapped("".join(f(x) + " ∷ " for x in items) + "[]", "    ").strip()
    write("proofs/Arrays.antt", """-- What the arrays of the code hold. %s
use Rattle.std.specs.Prelude.{ℕ, List, [], ◌∷◌}
use Rattle.grammar_tables.specs.declared.symbol.Symbol.{Symbol}
use Rattle.grammar_tables.specs.declared.symbol.Symbol.TheVariants.{Terminal, Nonterminal}
use Rattle.grammar_tables.specs.declared.tables.BodyRange.{BodyRange}

abbrev range : ℕ → ℕ → BodyRange
range from to = record { from = from; to = to }

unfoldable pub symbols : List Symbol
symbols =
    %s

unfoldable pub bodies : List BodyRange
bodies =
    %s

unfoldable pub offsets : List ℕ
offsets =
    %s
""" % (MADE, show(symbols, symbol), show(ranges, lambda r: "range %d %d" % r), show(offsets, str)))


def main():
    terminals, classes, rows, actions = read_text(os.path.join(TOP, "tools", "source.ebnf"))
    assert len(terminals) <= 126, len(terminals)
    lines = [(group, name, parsed(text, classes)) for group, name, text in rows]
    names = [name for _, name, _ in lines] + list(terminals.values()) + list(classes)
    assert len(set(names)) == len(names), "a name stands twice"
    expansion = Expansion(lines, terminals, classes)
    bodies = expansion.bodies
    class_kinds = [[expansion.kind[w] for w in ws] for _, ws, _ in classes.values()]
    kinds_of = lambda k: [k] if k < FIRST_CLASS else class_kinds[k - FIRST_CLASS]
    words = list(terminals) + [""] * (FIRST_CLASS - len(terminals)) + list(classes)
    name = lambda n: lines[n][1] if n < len(lines) else "part %d" % n
    show = lambda body: " ".join('"%s"' % words[s[1]] if s[0] == "T" else name(s[1]) for s in body)
    firsts, steps = first_sets(bodies, kinds_of)
    plan = Plan(bodies, firsts, name, kinds_of)
    found = conflicts(bodies, firsts, plan, name, show, lambda k: '"%s"' % words[k])
    if found:
        sys.exit("\n".join(found))
    depths = depths_of(bodies)
    write_names(terminals, classes, lines)
    write_classes(terminals, classes)
    write_grammar(terminals, classes, lines, steps)
    write_lists(bodies, expansion.marks, class_kinds, firsts, depths, plan)
    write_actions(rows, actions)
    write_kinds(terminals)
    write_words(terminals)
    write_lines(lines)
    write_class_numbers(classes)
    write_arrays(bodies, expansion.marks, class_kinds, kinds_of, firsts, depths)
    print("%d terminals, %d classes, %d lines, %d nonterminals, %d alternatives, %d symbols, FIRST of %d kinds in %d steps" % (
        len(terminals), len(classes), len(lines), len(bodies), sum(map(len, bodies)), sum(len(b) for alts in bodies for b in alts), sum(map(len, firsts)), steps))


if __name__ == "__main__":
    main()
