"""Writes a source and its proofs: many functions of sums with bounds, or of loops and calls; one function of many additions
in a row, or of statements, with `if`s among them or without; a contract or a body of many operators in one another; or a long source that is refused at its last token, at its last word, or at its first item."""
import sys


def sum_function(k):
    name = f"f{k}"
    source = f"#[requires(x@ < 100)]\n#[ensures(result@ == x@ + {k})]\nfn {name}(x: i32) -> i32 {{ x + {k} }}\n"
    proofs = (
        f"proof 1 {name}\nintro x\nrange x\nsplit\nlin 1:goal 1:2.1\nlin 1:goal 1:1.1\nend\n"
        f"proof 2 {name}\nintro x t\nhyp 1.2\nend\n"
    )
    return source, proofs


def loop_function(k):
    """Counts up to n, and calls the function before it."""
    name = f"f{k}"
    call = "" if k == 1 else f" f{k - 1}(n);"
    source = (
        f"#[requires(n@ >= 0)]\n#[ensures(result@ >= n@)]\n"
        f"fn {name}(n: i32) -> i32 {{{call} let mut i: i32 = 0; #[invariant(i@ <= n@)] while i < n {{ i += 1; }} i }}\n"
    )
    first = 1 if k == 1 else 2
    answer = "" if k == 1 else " r"
    shift = 0 if k == 1 else 1
    entry = "" if k == 1 else f"proof 1 {name}\nintro n\nhyp 1.1\nend\n"
    proofs = (
        f"{entry}proof {first} {name}\nintro n{answer}\nhyp 1.1\nend\n"
        f"proof {first + 1} {name}\nintro n{answer} i\nrange i\nrange n\nsplit\nlin 1:goal 1:2.1\nlin 1:goal 1:1.{3 + shift} 1:3.2\nend\n"
        f"proof {first + 2} {name}\nintro n{answer} i v\nlin 1:goal 1:1.{3 + shift} 1:1.{4 + shift}\nend\n"
        f"proof {first + 3} {name}\nintro n{answer} i\nlin 1:goal 1:1.{3 + shift}\nend\n"
    )
    return source, proofs


def additions(count):
    """One function of so many additions in a row, without proofs: what is measured is how long its goals take."""
    return f"fn f(x: u64) -> u64 {{ x{' + x' * count} }}\n", ""


def statements(count):
    """One function of so many statements in a row, each with a goal."""
    return "fn f(x: u64) {\n    let mut y: u64 = x;\n" + "    y = y + 1;\n" * count + "}\n", ""


def branches(count):
    """Ten `if`s, the most that the limit on paths allows, with so many statements before and behind them."""
    row = "    y = y + 1;\n" * count
    tests = "    if c { y = y + 1; }\n" * 10
    return "fn f(c: bool, x: u64) {\n    let mut y: u64 = x;\n" + row + tests + row + "}\n", ""


def flat(size):
    """Some `size` bytes of statements in a row that owe nothing."""
    return "fn f(x: i32) {\n" + "x;" * (size // 2) + "\n}\n", ""


def nested(leaf, count):
    """A sum of so many operators in one another, 250 of them at each level of parentheses."""
    text = leaf
    while count > 0:
        here = min(count, 250)
        text = f"({text}{' + 1' * here})"
        count -= here
    return text


def deep_term(count):
    """A contract with so many operators in one another."""
    return f"#[requires({nested('0', count)} == x@)]\nfn f(x: i32) {{ }}\n", ""


def deep_code(count):
    """A body with so many additions in one another."""
    return f"fn f(x: u64) -> u64 {{ {nested('x', count)} }}\n", ""


LINE = "    let x = y + 1 + 2 + 3 + 4;\n"


def long_source(size):
    """Some `size` bytes: one function of many short sums, and a word at the end that cannot stand there."""
    return "fn f(y: i32) {\n" + LINE * (size // len(LINE)) + "}\nelse\n", ""


def no_token_source(size):
    """The same, with no token at the end: its words are not parsed."""
    return long_source(size)[0].replace("else", "$"), ""


def not_built_source(size):
    """The same, whole, with an item before it that is not built: its trees are made, and looked at no further."""
    return "struct S;\n" + long_source(size)[0].replace("else", ""), ""


def texts_of(kind, count):
    made = {"additions": additions, "statements": statements, "branches": branches, "flat": flat, "deep_term": deep_term, "deep_code": deep_code, "long": long_source, "no_token": no_token_source, "not_built": not_built_source}
    if kind in made:
        return [made[kind](count)]
    function = {"sums": sum_function, "loops": loop_function}[kind]
    return [function(k) for k in range(1, count + 1)]


def main():
    kind, count, source_name, proofs_name = sys.argv[1], int(sys.argv[2]), sys.argv[3], sys.argv[4]
    texts = texts_of(kind, count)
    with open(source_name, "w", encoding="utf-8") as out:
        out.writelines(source for source, _ in texts)
    with open(proofs_name, "w", encoding="utf-8") as out:
        out.write("creusot-proofs 1\n")
        out.writelines(proofs for _, proofs in texts)


if __name__ == "__main__":
    main()
