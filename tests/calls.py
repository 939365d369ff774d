# The calls on text by the second engine of engine.py, on lent areas: what the reader, the solver and the writer answer under a folding table, and what
# they leave. The names held must be those that the work list finds over the spelt rules, and of few names those that every model has. Last,
# the call that fills an area with our own table.
import functools

import engine
from engine import JUNK8, JUNK16, JUNK64, LETTERS, Refused
from figures import BODY_AREA, FOLDS, LETTER_BYTES, LISTING_BYTES, NAME_AREA, ROW_AREA, ROW_WORDS, RULES, TEXT_BYTES, Refusal, head_line

# the areas in the order in which they are lent: stated size, and what an entry holds before the first call
AREAS = {
    "spellings": (NAME_AREA, JUNK8),
    "heads": (RULES, JUNK16),
    "bodies": (BODY_AREA, JUNK64),
    "all": (ROW_AREA, JUNK64),
    "any": (ROW_AREA, JUNK64),
    "spare": (ROW_AREA, JUNK64),
    "model": (ROW_WORDS, JUNK64),
    "listing": (LISTING_BYTES, JUNK8),
    "text": (TEXT_BYTES, JUNK8),
}
# those of names and rules, which the reader is lent; those of the solver; those of the writer, which leaves all but the last as they are
TABLES = tuple(AREAS)[:3]
SOLVER = tuple(AREAS)[:8]
WRITER = (*TABLES, "text")
# up to how many names every set of them is looked at
FEW_NAMES = 10


def lengths(areas, more=0):
    """the stated sizes of these areas, and so many entries more"""
    return {x: AREAS[x][0] + more for x in areas}


@functools.lru_cache(None)
def held(text, table=LETTERS):
    """the names held, by their spellings"""
    names, rules = engine.read(text, table)
    spelt = [(names[head], {names[a] for a in body}) for head, body in rules]
    least = engine.least(spelt)
    assert len(names) > FEW_NAMES or least == engine.in_every_model(spelt), text
    return least


@functools.lru_cache(None)
def standardised(text, table=LETTERS):
    names, rules = engine.read(text, table)
    return engine.standardised(len(names), rules)


@functools.lru_cache(None)
def folded(text, k, table=LETTERS):
    return engine.reached(standardised(text, table)[0], 2**k)


@functools.lru_cache(None)
def run(text, k, table=LETTERS):
    """the rounds with k folds, and the last set"""
    _, ors, start, _, _ = standardised(text, table)
    return engine.rounds(folded(text, k, table), ors, start)


def listing(text, k, table=LETTERS):
    """the head line and the held names in number order"""
    names, _ = engine.read(text, table)
    last = [name for name in names if name in held(text, table)]
    return head_line(len(names), len(last), k, run(text, k, table)[0]).encode() + b"".join(name + b"\n" for name in last)


class Areas:
    """areas of these lengths; a call leaves them as ours must"""

    def __init__(self, lengths):
        self.entries = {x: [AREAS[x][1]] * length for x, length in lengths.items()}

    def put(self, x, entries):
        """the entries, then zeros to the stated size"""
        size = AREAS[x][0]
        assert len(entries) <= size
        self.entries[x][:size] = [*entries, *[0] * (size - len(entries))]

    def cut(self, x, length):
        """lends less of an area"""
        del self.entries[x][length:]

    def totals(self, areas=None):
        """their checksums"""
        return [engine.total(tuple(self.entries[x])) for x in areas or self.entries]

    def judge(self, table):
        """what comes first for every call: the lengths of all that is lent, then the folding table"""
        if any(len(self.entries[x]) < AREAS[x][0] for x in self.entries):
            raise Refused(Refusal.SHORT_AREA)
        engine.judge(table)

    def enter(self, text, table):
        """the names and rules of a book, into their areas; those are cleared where a line is refused"""
        try:
            names, rules = engine.read(text, table)
        except Refused as cause:
            if cause.line:
                for x in TABLES:
                    self.put(x, [])
            raise
        for x, entries in zip(TABLES, (engine.spellings(names), *engine.tables(rules))):
            self.put(x, entries)
        return names, rules

    def read(self, text, table=LETTERS):
        """number, line, names, rules"""
        try:
            self.judge(table)
            names, rules = self.enter(text, table)
        except Refused as cause:
            return cause.number, cause.line, 0, 0
        return 0, 0, len(names), len(rules)

    def solve(self, text, k, table=LETTERS):
        """number, line, n, atoms, held names, rounds, c, h"""
        try:
            self.judge(table)
            if len(text) > TEXT_BYTES:
                raise Refused(Refusal.LONG_TEXT)
            if k > FOLDS:
                raise Refused(Refusal.FOLDS)
            names, _ = self.enter(text, table)
            _, ors, _, c, h = standardised(text, table)
        except Refused as cause:
            return cause.number, cause.line, 0, 0, 0, 0, 0, 0
        times, last = run(text, k, table)
        known = held(text, table)
        assert {name for a, name in enumerate(names) if a in last} == known, (text, k)
        self.put("all", engine.words(folded(text, k, table), ROW_WORDS, ROW_AREA))
        self.put("any", engine.words(ors, ROW_WORDS, ROW_AREA))
        self.put("spare", [])
        self.put("model", engine.words([last], ROW_WORDS, ROW_WORDS))
        self.put("listing", listing(text, k, table))
        return 0, 0, len(names), len(ors), len(known), times, c, h

    def write(self, names, rules, table=LETTERS):
        """number, size"""
        try:
            self.judge(table)
            text = engine.write(names, rules, table)
        except Refused as cause:
            return cause.number, 0
        self.put("text", text)
        return 0, len(text)


def fill(area):
    """number, and the area: our table in its first bytes and the rest as it was, or all of it as it was where the table has no room"""
    if len(area) < LETTER_BYTES:
        return Refusal.SHORT_AREA, area
    return 0, LETTERS + area[LETTER_BYTES:]
