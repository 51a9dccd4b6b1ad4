#!/usr/bin/env python3
"""What each line of the grammar of sources leaves among the parts of the line around it: proofs/Leaves.antt of crates/pearlite and of crates/rs_syntax, of tools/source.ebnf.

Nothing rests on it: proofs/Asked.antt of those crates tests each line against these lists."""

import os

import grammar

MADE = "Made by `python3 tools/leaves.py` of tools/source.ebnf."
TOKEN, TERM, EXPRESSION = 0, 5, 11
# the families of what the actions make that make no term, by the numbers of crates/pearlite/specs/Asked.antt
SHAPES = {
    1: "NamedType ReferenceType TupleType SelfType",
    2: "Wildcard MutPattern IntegerPattern TruthPattern TuplePattern PathPattern",
    3: "FieldPattern",
    4: "NamedPath QualifiedPath",
    6: "FieldTerm",
    7: "TermArm",
    8: "Binder",
    9: "View TermMember",
}
# and of those of code that make no expression, by the numbers of crates/rs_syntax/specs/Asked.antt
CODE = {
    10: "Passed",
    12: "Let",
    13: "Blocklike",
    14: "LetCondition",
    15: "Member",
    16: "Arguments",
    17: "FieldExpr",
    18: "Clause Derive",
    19: "LifetimeParam TypeParam",
    20: "Generics",
    21: "TraitBound CallBound",
    22: "TypeCondition LifetimeCondition",
    23: "Where",
    24: "NamedParam MutNamedParam MutReceiver ReceiverParam BorrowedParam",
    25: "Function",
    26: "Field TupleField",
    27: "Variant",
    28: "Method",
    29: "ViewType",
    30: "ImplHead",
    31: "Use ExternCrate Struct Enum Trait Impl",
    32: "Item",
}
# one of these may stand where another is asked for
GROUPS = [{11, 14}, {25, 31}, {1, 30}]
PLACES, FIRST = 6, 2


def by_action(families):
    return {action: family for family, actions in families.items() for action in actions.split()}


def either_place(a, b):
    """One of the one place or of the other, where those may stand for each other."""
    return a | b if a == b or any(a | b <= group for group in GROUPS) else None


def weight(places):
    """Tokens weigh little."""
    return sum(1 if TOKEN in place else 100 for place in places)


def shortened(places):
    """Without the last tokens, where there are many places."""
    while len(places) > PLACES:
        tokens = [i for i, place in enumerate(places) if TOKEN in place]
        cut = tokens[-1] if tokens else len(places) - 1
        places = places[:cut] + places[cut + 1:]
    return places


def common(a, b):
    """A heaviest list of places that stand in both, in order."""
    rows = [[()] * (len(b) + 1) for _ in range(len(a) + 1)]
    for i in reversed(range(len(a))):
        for j in reversed(range(len(b))):
            place, found = either_place(a[i], b[j]), [rows[i + 1][j], rows[i][j + 1]]
            rows[i][j] = max(([(place,) + rows[i + 1][j + 1]] if place else []) + found, key=weight)
    return shortened(rows[0][0])


class Leaves:
    """Places of families that surely stand there, in order; the first ones, and whether there are no others; the families of any part; those of a part that stands alone; those of the last part; whether there may be no part."""

    def __init__(self, surely=(), begins=(), exact=True, only=(), single=(), ending=(), empty=True):
        self.fields = (surely, begins[:FIRST], exact and len(begins) <= FIRST, frozenset(only), frozenset(single), frozenset(ending), empty)
        self.surely, self.begins, self.exact, self.only, self.single, self.ending, self.empty = self.fields

    def before(self, other):
        single = (self.single if other.empty else frozenset()) | (other.single if self.empty else frozenset())
        ending = other.ending | (self.ending if other.empty else frozenset())
        begins = self.begins + (other.begins if self.exact else ())
        return Leaves(self.surely + other.surely, begins, self.exact and other.exact, self.only | other.only, single, ending, self.empty and other.empty)

    def either(self, other):
        begins = tuple(a | b for a, b in zip(self.begins, other.begins))
        exact = self.exact and other.exact and len(self.begins) == len(other.begins)
        return Leaves(common(self.surely, other.surely), begins, exact, self.only | other.only, self.single | other.single, self.ending | other.ending, self.empty or other.empty)

    def sets(self):
        return [sorted(fs) for fs in (self.only, self.single, self.ending)]


def families(fs):
    return "(%s[])" % "".join("%d ∷ " % f for f in fs) if fs else "[]"


def truth(b):
    return "true" if b else "false"


def one(family):
    place = (frozenset([family]),)
    return Leaves(place, place, True, (family,), (family,), (family,), False)


def solved(bodies, made):
    """The leaves of each nonterminal; `made` are those that are made into one part."""
    leaves = [made.get(n) for n in range(len(bodies))]
    of = lambda s: one(TOKEN) if s[0] == "T" else leaves[s[1]]
    changed = True
    while changed:
        changed = False
        for n, alternatives in enumerate(bodies):
            if n in made:
                continue
            total = None
            for body in alternatives:
                parts = [of(s) for s in body]
                if None in parts:
                    continue
                whole = Leaves()
                for part in reversed(parts):
                    whole = part.before(whole)
                total = whole if total is None else total.either(whole)
            if total is not None and (leaves[n] is None or leaves[n].fields != total.fields):
                leaves[n], changed = total, True
    return leaves


def of_terms(leaves):
    """Each place is of one family, and nothing is said of the first ones."""
    singles = [min(place) for place in shortened(leaves.surely)]
    return "left %s %s" % (" ".join(map(families, [singles] + leaves.sets())), truth(leaves.empty))


def of_sources(leaves):
    def places(them):
        return "(%s[])" % "".join("%s ∷ " % families(sorted(place)) for place in them) if them else "[]"

    first = "%s %s" % (places(leaves.begins), truth(leaves.exact))
    return "left %s %s %s %s" % (places(shortened(leaves.surely)), first, " ".join(map(families, leaves.sets())), truth(leaves.empty))


OF_TERMS = """abbrev left : List ℕ → List ℕ → List ℕ → List ℕ → Bool → Leaves
left surely only single ending empty = record { surely = map (λ family. family ∷ []) surely; begins = []; exact = false; only = only; single = single; ending = ending; empty = empty }
"""
OF_SOURCES = """abbrev left : List (List ℕ) → List (List ℕ) → Bool → List ℕ → List ℕ → List ℕ → Bool → Leaves
left surely begins exact only single ending empty = record { surely = surely; begins = begins; exact = exact; only = only; single = single; ending = ending; empty = empty }
"""


def write(crate, bodies, made, names, text_of, definition):
    listed = ["no_parts" if n in made else text_of(leaves) for n, leaves in enumerate(solved(bodies, made))]
    text = "\n".join([
        "-- What each nonterminal of the grammar leaves among the parts of the line around it, where nothing is made of it. " + MADE,
        "use Rattle.std.specs.Prelude.{%s}" % names,
        "use Rattle.pearlite.proofs.Serving.{Leaves, no_parts}", "",
        definition,
        "unfoldable pub leaves : List Leaves", "leaves =", "    " + "\n    ∷ ".join(listed) + "\n    ∷ []", ""])
    with open(os.path.join(grammar.TOP, "crates", crate, "proofs", "Leaves.antt"), "w") as f:
        f.write(text)


def main():
    terminals, classes, rows, actions = grammar.read_text(os.path.join(grammar.TOP, "tools", "source.ebnf"))
    lines = [(group, name, grammar.parsed(text, classes)) for group, name, text in rows]
    bodies = grammar.Expansion(lines, terminals, classes).bodies
    groups = grammar.grouped_actions(rows, actions)
    shape_family, code_family = by_action(SHAPES), by_action(CODE)
    shapes = {n: one(shape_family.get(action[0], TERM)) for n, action in enumerate(actions) if action and action[0] in groups["Shape"]}
    code = {n: one(code_family.get(action[0], EXPRESSION)) for n, action in enumerate(actions) if action and action[0] not in groups["Shape"]}
    write("pearlite", bodies, shapes, "ℕ, Bool, true, false, List, [], ◌∷◌, map", of_terms, OF_TERMS)
    write("rs_syntax", bodies, {**shapes, **code}, "ℕ, Bool, true, false, List, [], ◌∷◌", of_sources, OF_SOURCES)


if __name__ == "__main__":
    main()
