# Books that several checks of tests/ use: rules as document 01 writes them, one a line; and lines of no listed form, with the numbers that are due by
# hand. Limits, refusals and the printed book's figures are those of figures.py.
import os
import re

from figures import ATOMS, FOLDS, MARK, NAME_BYTES, NAMES, RULES, TEXT_BYTES, Printed, Refusal

# Marked * in document 01: rules, names held, rounds by folds (worked out where the text has none).
KNOWN = {
    "none": ("", "", {0: 1, 1: 1, 8: 1}),
    "fact": ("a:", "a", {0: 1, 1: 1, 8: 1}),
    "self": ("a:a", "", {0: 1, 1: 1, 8: 1}),
    "pair": ("p:q/q:p", "", {0: 1, 8: 1}),
    "undefined": ("x:y z/y:", "y", {0: 1, 1: 1}),
    "chain_4": ("d:c/c:b/b:a/a:", "a b c d", {0: 4, 1: 3, 2: 2}),
    "pair_and_chain": ("p:q/q:p r/r:s/s:", "r s", {0: 2}),
    "printed": (Printed.RULES, Printed.HELD, Printed.ROUNDS),
    "pair_with_more": ("p:q s t/q:p t/s:t/t:", "s t", {0: 2}),
    "fact_among_two": ("a:/a:b", "a", {0: 2}),
    "capitals": ("P:q/Q:", "p q", {0: 2}),
}

SMALL = {
    "loop_3": "a:b/b:c/c:a",
    "loop_5": "a:b/b:c/c:d/d:e/e:a",
    "loop_7": "a:b/b:c/c:d/d:e/e:f/f:g/g:a",
    "loop_5_backwards": "e:d/d:c/c:b/b:a/a:e",
    "loop_3_with_fact": "a:b/b:c/c:a/c:",
    "loop_7_with_fact": "a:b/b:c/c:d/d:e/e:f/f:g/g:a/d:",
    "loops_2_and_3": "a:b c/b:a/c:d/d:a",
    "loop_and_condition": "a:b/b:c x/c:a/x:",
    "loops_joined_by_any": "a:b/b:a/b:c/c:d/d:c/d:e/e:",
    "chain_backwards": "a:/b:a/c:b/d:c",
    "chain_9": "i:h/h:g/g:f/f:e/e:d/d:c/c:b/b:a/a:",
    "chain_9_backwards": "a:/b:a/c:b/d:c/e:d/f:e/g:f/h:g/i:h",
    "facts_among_several": "a:/a:b/b:a/b:/b:c/c:c",
    "only_facts_among_several": "a:/a:/b:a/c:/c:/c:",
    "fact_last_of_three": "a:b/a:c/a:/d:a",
    "several_without_fact": "a:b/a:c/b:d/b:a/c:",
    "undefined_names": "a:b/c:d e/f:/g:f h/g:f",
    "undefined_beside_fact": "a:b u/b:",
    "undefined_through_chain": "a:b/b:c/c:u",
    "repeated_rules": "a:b/a:b/b:/b:/c:a b/c:b a",
    "repeated_fact_rules": "a:/a:/a:",
    "self_among_two": "a:a/a:b/b:",
    "self_in_body": "a:a b/b:",
    "any_under_any": "a:b/a:c/b:d/b:e/e:",
    "branching": "a:b c/b:d e/c:e f/d:/e:/f:",
    "branching_without_last": "a:b c/b:d e/c:e f/d:/e:",
    "body_twice": "a:b b c b/b:/c:",
    "every_kind": "a:b c/a:u/b:/c:b/d:/d:a/e:e",
}


def numbered(letter, numbers):
    return " ".join("%s%d" % (letter, i) for i in numbers)


# How many heads fit into the atoms: those of two rules in a row, each over the one before, after one fact, and how many facts more then fit; those of
# two rules with a name between each two, and how long their names can be; those of two rules beside all the names. How many rules one head can have,
# each over a name of its own but one.
IN_A_ROW = (ATOMS - 1) // 3
MORE_FACTS = ATOMS - 1 - 3 * IN_A_ROW
WITH_NAMES = ATOMS // 4
LONG = min(NAME_BYTES, (TEXT_BYTES - len(MARK)) // (6 * WITH_NAMES) - 1)
BESIDE_NAMES = (ATOMS - NAMES) // 2
HELPERS = 2 * BESIDE_NAMES
OF_ONE_HEAD = ATOMS // 2
# the books with one atom too many
TOO_MANY_ATOMS = [f"helpers_{HELPERS + 1}", f"helpers_{HELPERS + 1}_and_fact", f"facts_of_one_head_{ATOMS}", f"rules_of_one_head_{OF_ONE_HEAD + 1}"]


def halved(length):
    """the rounds by folds of a chain that long: one for each step, which a fold halves, and one that changes nothing"""
    return [1 + (length - 2 + 2**k) // 2**k for k in range(FOLDS + 1)]


def large_books():
    yield f"chain_{NAMES}", ["n%d:n%d" % (i, i + 1) for i in range(NAMES - 1)] + [f"n{NAMES - 1}:"]
    yield f"chain_{NAMES}_backwards", ["n0:"] + ["n%d:n%d" % (i + 1, i) for i in range(NAMES - 1)]
    yield f"loop_{NAMES}", ["n%d:n%d" % (i, (i + 1) % NAMES) for i in range(NAMES)]
    yield f"loop_{NAMES - 1}_with_fact", ["n%d:n%d" % (i, (i + 1) % (NAMES - 1)) for i in range(NAMES - 1)] + ["n63:"]
    more = ["more%d:" % i for i in range(MORE_FACTS)]
    yield f"heads_{IN_A_ROW}", ["h0:"] + ["h%d:h%d" % (i, j) for i in range(1, IN_A_ROW + 1) for j in (i - 1, i)] + more
    long = lambda letter, i: ("%02d" % i).rjust(LONG, letter)
    yield f"heads_{WITH_NAMES}", [long("u", i) + ":" + (long("h", i - 1) if i else "") for i in range(WITH_NAMES)] \
        + [long("h", i) + ":" + long(letter, i) for i in range(WITH_NAMES) for letter in "uh"]
    helpers = ["n%d:n%d" % (i, j) for i in range(BESIDE_NAMES) for j in (i, i + NAMES // 2)]
    yield f"helpers_{HELPERS}", helpers
    yield f"helpers_{HELPERS + 1}", helpers + ["n5:n6 n7"]
    yield f"helpers_{HELPERS + 1}_and_fact", helpers[:1] + ["n0:"] + helpers[1:]
    yield f"facts_of_one_head_{ATOMS - 1}", ["a:"] * (ATOMS - 1)
    yield f"facts_of_one_head_{ATOMS}", ["a:"] * ATOMS
    yield f"rules_of_one_head_{OF_ONE_HEAD}", ["a:n%d" % i for i in range(OF_ONE_HEAD - 1)] + ["a:"]
    yield f"rules_of_one_head_{OF_ONE_HEAD + 1}", ["a:n%d" % i for i in range(OF_ONE_HEAD - 1)] + ["a:", "a:a"]
    yield f"body_of_{NAMES}", ["n0:" + numbered("n", range(NAMES))]
    # as many bodies of all names as a text has room for, with a fourth byte for each name
    bodies = TEXT_BYTES // (4 * NAMES)
    yield f"bodies_of_{NAMES}", ["%02x:" % i + " ".join("%02x" % a for a in range(NAMES)) for i in range(0, NAMES, NAMES // bodies)]
    yield "body_over_both_words", ["a:" + numbered("n", range(100))] + ["n%d:" % i for i in range(100)]
    yield "body_over_both_words_but_one", ["a:" + numbered("n", range(100))] + ["n%d:" % i for i in range(100) if i != 77]
    yield "names_63_to_65", ["a:" + numbered("n", range(62)) + " x y z", "x:y", "y:z", "z:", "x:n3", "b:x y z"]
    yield "heads_past_64", ["a:" + numbered("n", range(90))] + ["n%d:n%d" % (i, i + 1) for i in range(60, 80)] + ["n80:", "n70:", "n71:n70 n2"]
    for n in (64, 66, 100, NAMES - 2, NAMES):
        both_ways = ["n%d:n%d" % (i, j) for i in range(1, 63) for j in (i - 1, i + 1)]
        yield "helpers_from_%d" % n, ["n0:" + numbered("n", range(1, n)), "n0:n1"] + both_ways + ["n63:"]


# Lines of no listed form, each with the number of its leftmost fault (document 02, 2.1), worked out by hand. Other bytes than small letters, digits,
# blanks and colons are reserved, so that the numbers are the same under every folding table that knows these letters.
FULL_NAME = (b"abcdefghijklmnopqrstuvwxyz0123456789" * NAME_BYTES)[:NAME_BYTES]
OVERLONG = FULL_NAME + b"6"
BAD_LINES = {
    Refusal.LINE: {
        "no_colon": b"a",
        "no_colon_but_a_blank": b"a ",
        "no_colon_after_full_name": b"\t" + FULL_NAME,
        "colon_first": b":",
        "colon_after_blanks": b" \t:a",
        "colon_first_then_overlong": b":" + OVERLONG,
        "colon_first_then_barred": b": \r",
        "two_colons": b"a::",
        "two_colons_then_barred": b"a: :\r",
        "two_colons_then_overlong": b"a::" + OVERLONG,
        "colon_after_body": b"a:b:",
        "colon_after_body_and_blank": b"a:b c :d",
        "colon_after_full_body_name": b"a:" + FULL_NAME + b":",
        "two_heads": b"a b",
        "two_heads_and_colon": b"a\tb:c",
        "two_heads_then_barred": b"a b\r",
        "two_heads_barred_inside": b"a b!c:",
        "second_head_overlong": b"a " + OVERLONG,
        "second_head_after_full_name": FULL_NAME + b" b:",
    },
    Refusal.LONG_NAME: {
        "overlong_alone": OVERLONG,
        "overlong_head": OVERLONG + b":b",
        "overlong_head_after_blanks": b" \t " + OVERLONG + b" :",
        "overlong_head_then_barred": OVERLONG + b"\r",
        "overlong_head_then_second": OVERLONG + b" b:",
        "overlong_head_then_colons": OVERLONG + b"::",
        "overlong_body": b"a:" + OVERLONG,
        "overlong_last_in_body": b"a: b " + FULL_NAME + b"\t" + OVERLONG + b" ",
        "overlong_first_in_body": b"a:" + OVERLONG + b" b",
        "overlong_body_then_barred": b"a:b " + OVERLONG + b"!",
        "overlong_body_then_colon": b"a:" + OVERLONG + b":",
        "overlong_body_then_remark": b"a:" + OVERLONG + b" # b",
        "twice_as_long": b"a:" + FULL_NAME + FULL_NAME,
        "overlong_twice": OVERLONG + b":" + OVERLONG,
    },
    Refusal.BARRED_BYTE: {
        "barred_remark_after_blank": b" # a",
        "barred_remark_after_rule": b"a:b#",
        "barred_remark_after_head": b"a #b:",
        "barred_denial": b"!x",
        "barred_denial_with_body": b"!:a b",
        "barred_edition": b"@1",
        "barred_zero": b"\0",
        "barred_zero_in_body": b"a:b \0 c",
        "barred_alone": b"\r",
        "barred_alone_after_blanks": b"\t \r",
        "barred_after_head": b"a\r",
        "barred_after_head_and_blank": b"a \r",
        "barred_after_full_name": FULL_NAME + b"\r",
        "barred_before_colon": b"a!:b",
        "barred_after_colon": b"a:\r",
        "barred_after_body": b"a:b\r",
        "barred_after_body_and_blank": b"a:b \r",
        "barred_after_full_body_name": b"a:b " + FULL_NAME + b"@",
        "barred_before_overlong_head": b"@" + OVERLONG + b":",
        "barred_before_overlong_body": b"a:! " + OVERLONG,
        "barred_before_colon_in_body": b"a:\0:",
        "barred_before_second_head": b"a! b",
    },
}


def each_bad_line():
    """its name, the line and its number"""
    for number, lines in BAD_LINES.items():
        for name, line in lines.items():
            yield name, line, number


def bad_books():
    """the lines of books by name, with the number and the line that are due. 13 and 14 stand at 5's place: in one line before the 257th rule and the
    129th name, and of several lines the first decides"""
    # the known books of the request
    yield f"name_{NAME_BYTES + 1}", [OVERLONG + b":b"], Refusal.LONG_NAME, 2
    yield "carriage_return_in_rule", [b"a:b\r"], Refusal.BARRED_BYTE, 2
    all_rules, over_names = [b"a:"] * RULES, b"n:" + b" ".join(b"n%d" % i for i in range(NAMES))
    # a line as long as can be
    room = TEXT_BYTES - len(MARK) - 1
    faults = (Refusal.LINE, "colon", b" :"), (Refusal.LONG_NAME, "overlong", b" " + OVERLONG), (Refusal.BARRED_BYTE, "barred", b" \r")
    for number, kind, fault in faults:
        bad = b"a:" + fault
        yield f"{kind}_in_rule_{RULES + 1}", [*all_rules, bad], number, RULES + 2
        yield f"{kind}_below_rule_{RULES + 1}", [*all_rules, b"a:", bad], Refusal.RULES, RULES + 2
        yield f"{kind}_above_rule_{RULES + 1}", [bad, *all_rules, b"a:"], number, 2
        yield f"{kind}_beside_name_{NAMES + 1}", [b"", over_names + fault], number, 3
        yield f"{kind}_below_name_{NAMES + 1}", [b"", over_names, bad], Refusal.NAMES, 3
        yield f"{kind}_above_name_{NAMES + 1}", [b"#", bad, over_names], number, 3
        yield f"{kind}_beside_both", [*all_rules, over_names + fault], number, RULES + 2
        yield f"{kind}_on_a_long_line", [b"a:" + (b" b" * room)[-(room - len(bad)):] + fault], number, 2
    yield "overlong_above_barred", [b"a:", b"a:" + OVERLONG, b"a:\r"], Refusal.LONG_NAME, 3
    yield "barred_above_overlong", [b"a:", b"a:\r", b"a:" + OVERLONG], Refusal.BARRED_BYTE, 3
    yield "no_colon_above_both", [b"a", b"a:\r", b"a:" + OVERLONG], Refusal.LINE, 2


def mixed(chance, names, rules, near):
    """that many rules over that many names; bodies are from names close by where near is not 0"""
    for _ in range(rules):
        head = chance.below(names)
        size = chance.of([0, 1, 1, 1, 1, 2, 2, 3] if near else [0, 0, 1, 1, 1, 2, 2, 3])
        place = lambda: (head + 1 + chance.below(near)) % names if near else chance.below(names)
        yield "k%d:" % head + " ".join("k%d" % place() for _ in range(size))


def format_example():
    """the book that docs/FORMAT.md shows: its first indented lines"""
    with open(os.path.join(os.path.dirname(os.path.abspath(__file__)), "..", "docs", "FORMAT.md"), "rb") as f:
        return re.search(rb"(?:^    .*\n)+", f.read(), re.M)[0].replace(b"\n    ", b"\n")[4:]
