# A reader, a writer and an engine written apart from ours, from the documents alone, which the checks of tests/ share. The reader goes by regular
# expressions over whole lines, made from the folding table that it is lent, and finds the fault of a bad line by trying how its first bytes could go
# on; the writer goes by what the reader makes of its text. Rows are Python sets, standardised by the four kinds of document 01; no fold is made, the
# rows after k folds are the atoms reached in exactly 2^k steps along rows; rounds go by their definition. What is held, a work list over the
# spellings of the rules says, and for few names every model there is.
import functools
import itertools
import math
import os
import re
import string
import sys

from figures import ATOMS, BODY_AREA, BODY_WORDS, LETTER_BYTES, MARK, NAME_AREA, NAME_BYTES, NAMES, RULES, TEXT_BYTES, WORD_BITS, Refusal

ROOT = os.path.join(os.path.dirname(os.path.abspath(__file__)), "..")
# what the areas of the test programs hold before a call, the entries that they lend past the stated sizes, up to how many atoms they print rows and
# listings whole, and how large a file they read: the figures of crates/trial
JUNK8, JUNK16, JUNK64, GUARD = 165, 4660, 81985529216486895, 4
FEW, INPUT = 12, 65536
MOST = 2**64 - 1


class Refused(Exception):
    """a refusal's number and line"""

    def __init__(self, number, line=0):
        super().__init__(number, line)
        self.number, self.line = number, line


# Folding tables: an entry for each byte value, 0 for a byte that no name has, else the folded byte.

SMALL, CAPITAL, DIGITS = (letters.encode() for letters in (string.ascii_lowercase, string.ascii_uppercase, string.digits))
# those that document 02 (2.9) keeps out of names
RESERVED = b"\0\t\n\r !#:@"


def folding(own, folded=b"", to=b""):
    """the table in which these bytes are their own entries, and others fold to some, one by one"""
    table = bytearray(LETTER_BYTES)
    for byte, entry in [*zip(own, own), *zip(folded, to)]:
        table[byte] = entry
    return bytes(table)


# document 01: letters, digits, `.`, `_`, `-`, folded to small letters
LETTERS = folding(SMALL + DIGITS + b"._-", CAPITAL, SMALL)


def judge(table):
    """refuses a table under which nothing is read or written; what lies past its entries is free"""
    if len(table) < LETTER_BYTES:
        raise Refused(Refusal.SHORT_AREA)
    if any(table[byte] for byte in RESERVED):
        raise Refused(Refusal.RESERVED_BYTE)
    own = {byte for byte in range(LETTER_BYTES) if table[byte] == byte}
    if not own.issuperset(filter(None, table[:LETTER_BYTES])):
        raise Refused(Refusal.UNSETTLED_ENTRY)


# Lines without their ends.


@functools.lru_cache(4096)
def forms(entries):
    """the bytes that have an entry, and regular expressions for a run of them and for a rule, head and body apart; where no byte has an entry
    there is no name"""
    known = bytes(byte for byte in range(LETTER_BYTES) if entries[byte])
    known_byte = b"[" + b"".join(re.escape(bytes([byte])) for byte in known) + b"]" if known else b"(?!)"
    name = known_byte + b"{1,%d}" % NAME_BYTES
    rule = rb"[ \t]*(" + name + rb")[ \t]*:[ \t]*((?:" + name + rb"(?:[ \t]+" + name + rb")*[ \t]*)?)"
    return known, re.compile(known_byte + b"+"), re.compile(rule)


def names_in(line, entries):
    """the names of a line of a listed form, the head first: none in a blank line or a remark. None where the line has no listed form"""
    _, run_form, rule_form = forms(entries)
    if line.startswith(b"#") or not line.strip(b" \t"):
        return []
    rule = rule_form.fullmatch(line)
    return rule and [rule[1], *run_form.findall(rule[2])]


def viable(prefix, entries):
    """whether some continuation of a line's first bytes is of a listed form. Blanks and a remark are one as they stand, and so is a rule after each
    byte from its colon on: what others can lack is a colon alone"""
    return any(names_in(prefix + more, entries) is not None for more in (b"", b":"))


def fault(line, entries):
    """the number under which a line of no listed form is refused (document 02, 2.1): by the first byte that leaves none possible, or by the line's
    end"""
    # what begins a viable prefix is viable: so the longest one is found by halving
    longest, past = 0, len(line) + 1
    while past - longest > 1:
        middle = (longest + past) // 2
        longest, past = (middle, past) if viable(line[:middle], entries) else (longest, middle)
    if longest == len(line):
        return Refusal.LINE
    byte, known = line[longest], forms(entries)[0]
    if byte not in known and byte not in b" \t:":
        return Refusal.BARRED_BYTE
    run = past - len(line[:past].rstrip(known))
    return Refusal.LONG_NAME if run == NAME_BYTES + 1 else Refusal.LINE


# Books.


def text_of(lines):
    """the book with these lines after its mark"""
    return MARK + b"".join(line + b"\n" for line in lines)


def read(text, table=LETTERS, most=TEXT_BYTES):
    """names and rules (head, set of numbers) of a book under a folding table, of at most so many bytes"""
    judge(table)
    if len(text) > most:
        raise Refused(Refusal.LONG_TEXT)
    if not text.startswith(MARK):
        raise Refused(Refusal.MARK)
    if not text.endswith(b"\n"):
        raise Refused(Refusal.LAST_BYTE)
    entries = table[:LETTER_BYTES]
    numbers, rules = {}, []
    for place, line in enumerate(text.split(b"\n")[1:-1]):
        spelt = names_in(line, entries)
        if spelt is None:
            raise Refused(fault(line, entries), place + 2)
        if not spelt:
            continue
        spelt = [name.translate(entries) for name in spelt]
        if len(rules) == RULES:
            raise Refused(Refusal.RULES, place + 2)
        for name in spelt:
            numbers.setdefault(name, len(numbers))
        if len(numbers) > NAMES:
            raise Refused(Refusal.NAMES, place + 2)
        head, *body = [numbers[name] for name in spelt]
        rules.append((head, set(body)))
    return list(numbers), rules


def write(names, rules, table=LETTERS):
    """the text of names and rules (head, set of numbers) under a folding table. Where a book of any length reads to them, this text does too: a body's
    names that are new have rising numbers in that book, and here all have. So it is this text's reading that says whether they are well formed"""
    judge(table)
    if any(a >= len(names) for head, body in rules for a in (head, *body)):
        raise Refused(Refusal.ILL_FORMED)
    text = text_of(names[head] + b":" + b" ".join(names[a] for a in sorted(body)) for head, body in rules)
    try:
        same = read(text, table, math.inf) == (names, rules)
    except Refused:
        same = False
    if not same:
        raise Refused(Refusal.ILL_FORMED)
    if len(text) > TEXT_BYTES:
        raise Refused(Refusal.LONG_WRITTEN)
    return text


# What a book holds.


def least(rules):
    """the names held by rules (head, set), by a work list: how many names each rule still waits for"""
    waits = [len(body) for _, body in rules]
    users = {}
    for j, (_, body) in enumerate(rules):
        for name in body:
            users.setdefault(name, []).append(j)
    todo, held = [head for head, body in rules if not body], set()
    while todo:
        name = todo.pop()
        if name not in held:
            held.add(name)
            for j in users.get(name, []):
                waits[j] -= 1
                if waits[j] == 0:
                    todo.append(rules[j][0])
    return held


def in_every_model(rules):
    """the names that lie in every model of rules (head, set), of all the sets of names that there are"""
    names = sorted({name for head, body in rules for name in (head, *body)})
    bit = {name: 1 << i for i, name in enumerate(names)}
    masks = [(bit[head], sum(bit[name] for name in body)) for head, body in rules]
    common = (1 << len(names)) - 1
    for model in range(1 << len(names)):
        if all(model & head or body & ~model for head, body in masks):
            common &= model
    return {name for name in names if common & bit[name]}


def plain(rules):
    """the rounds of the plain route, the last included, and its last set"""
    v, count = set(), 0
    while True:
        after = {head for head, body in rules if body <= v}
        count += 1
        if after == v:
            return count, v
        v = after


# Rows.


def standardised(n, rules):
    """"all" rows, "any" rows, start set, c and h for rules (head, set of numbers) over n names"""
    ways = [[j for j, (head, _) in enumerate(rules) if head == a] for a in range(n)]
    helpers = {}
    for j, (head, _) in enumerate(rules):
        if len(ways[head]) > 1:
            helpers[j] = n + len(helpers)
    atoms = range(n + len(helpers))
    if len(atoms) > ATOMS:
        raise Refused(Refusal.ATOMS)
    rows, ors, start, counted = {}, {}, set(), set()

    def over(atom, body):
        rows[atom] = set(body) or {atom}
        (counted if body else start).add(atom)

    for a in range(n):
        if len(ways[a]) == 0:
            rows[a] = {a}
        elif len(ways[a]) == 1:
            over(a, rules[ways[a][0]][1])
        else:
            rows[a], ors[a] = {a}, {helpers[j] for j in ways[a]}
    for j, helper in helpers.items():
        over(helper, rules[j][1])
    return [rows[a] for a in atoms], [ors.get(a, set()) for a in atoms], start, len(counted), len(ors)


def reached(rows, steps):
    """for each atom, those reached from it in exactly that many steps along rows"""
    onward = functools.lru_cache(None)(lambda here: frozenset().union(*(rows[a] for a in here)))
    ends = []
    for a in range(len(rows)):
        here = frozenset([a])
        for _ in range(steps):
            here = onward(here)
        ends.append(here)
    return ends


def rounds(rows, ors, start):
    """the rounds, the last included, and the last set"""
    v, count = set(start), 0
    while True:
        after = {a for a in range(len(rows)) if (ors[a] & v if ors[a] else rows[a] <= v)}
        count += 1
        if count == 1 and v - after:
            raise Refused(Refusal.START_LOST)
        if after == v:
            return count, v
        v = after


# Areas: lists of entries.


@functools.lru_cache(64)
def sets(entries, width):
    """the rows of an area"""
    masks = (sum(x << WORD_BITS * k for k, x in enumerate(entries[i:i + width])) for i in range(0, len(entries), width))
    return tuple(frozenset(k for k in range(mask.bit_length()) if mask >> k & 1) for mask in masks)


def words(rows, width, size):
    """an area of that size with these rows"""
    area = [0] * size
    for i, row in enumerate(rows):
        for a in row:
            area[i * width + a // WORD_BITS] |= 1 << a % WORD_BITS
    return area


def spellings(names):
    """the name area"""
    return list(b"".join(name.ljust(NAME_BYTES, b"\0") for name in names).ljust(NAME_AREA, b"\0"))


def tables(rules):
    """the areas of heads and of bodies"""
    return [head for head, _ in rules] + [0] * (RULES - len(rules)), words([body for _, body in rules], BODY_WORDS, BODY_AREA)


@functools.lru_cache(4096)
def total(entries):
    """the checksum of an area that the test programs print: each entry is three figures to the base 65521. Where an entry stands several times
    in a row, s becomes s * step + x as often: by the sum of a geometric series"""
    s, step = 0, 31**3 % 65521
    for entry, run in itertools.groupby(entries):
        times = sum(1 for _ in run)
        x = (entry % 65521 * 961 + entry // 65521 % 65521 * 31 + entry // 65521**2) % 65521
        power = pow(step, times, 65521)
        s = (s * power + x * (power - 1) * pow(step - 1, -1, 65521)) % 65521
    return s


# Samples.


class Chance:
    """numbers that look random and are the same with every version of Python"""

    def __init__(self, seed):
        self.seed = seed

    def below(self, n):
        self.seed = (self.seed * 6364136223846793005 + 1442695040888963407) % 2**64
        return (self.seed >> 33) % n

    def of(self, things):
        return things[self.below(len(things))]

    def some(self, n, parts):
        """a set of numbers below n, each with a chance of one in so many"""
        return {a for a in range(n) if self.below(parts) == 0}


# The files of a test program.


def settle(check, crate, made, summary):
    """without arguments: compares args, stdout and data/ of the crate with what is made here; with --write: writes them"""
    run = os.path.join(ROOT, "crates", crate)
    made["args"] = b"".join(name[len("data/"):].encode() + b"\n" for name in made if name.startswith("data/"))
    if sys.argv[1:] == ["--write"]:
        for name, text in made.items():
            with open(os.path.join(run, name), "wb") as f:
                f.write(text)
        return 0
    there = {"data/" + name for name in os.listdir(os.path.join(run, "data"))} | {"args", "stdout"}
    missing = set(made) - there
    extra = there - set(made)
    wrong = [name for name, text in made.items() if name in there and open(os.path.join(run, name), "rb").read() != text]
    for names, what in ((wrong, "is not what is made here"), (missing, "is missing"), (extra, "is none of the files made here")):
        for name in sorted(names):
            print("tests/%s: crates/%s/%s %s" % (check, crate, name, what))
    print("tests/%s: %s" % (check, summary))
    return 1 if wrong or missing or extra else 0
