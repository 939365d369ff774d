# The figures of document 01, and of document 02 as far as it is landed, once for all checks in Python: limits, sizes of areas, refusals by name, and
# the book that document 01 prints. C has them in tests/native/figures.h, Rust in tests/second/figures.rs. tests/figures holds the three to each other,
# to the engine's own and to the pages.

# Limits: at most this many.
TEXT_BYTES = 16384
NAMES = 128
NAME_BYTES = 32
RULES = 256
ATOMS = 256
FOLDS = 8

# Bits in a word, words in a row over atoms and in a body over names.
WORD_BITS = 64
ROW_WORDS = 4
BODY_WORDS = 2

# Bytes of a folding table: an entry for each byte value.
LETTER_BYTES = 256

# The sizes of areas, in entries; that of heads is RULES, that of the model area ROW_WORDS.
NAME_AREA = NAMES * NAME_BYTES
BODY_AREA = RULES * BODY_WORDS
ROW_AREA = ATOMS * ROW_WORDS
LISTING_BYTES = 4608

# The mark line of a book, and how a listing begins. The last line of a text that can be at fault: the mark is line 1, a line end each is the least
# that stands between, and a faulty line has two bytes. The longest listing: its head line, then all names of full length.
MARK = b"DPB 0001\n"
LISTED = "DPL 0001"
LAST_LINE = TEXT_BYTES - len(MARK)
LONGEST_LISTING = 4271


class Refusal:
    """the numbers under which calls refuse"""

    SHORT_AREA = 1
    LONG_TEXT = 2
    MARK = 3
    LAST_BYTE = 4
    LINE = 5
    NAMES = 6
    RULES = 7
    ATOMS = 8
    FOLDS = 9
    ILL_FORMED = 10
    START_LOST = 11
    LONG_WRITTEN = 12
    LONG_NAME = 13
    BARRED_BYTE = 14
    RESERVED_BYTE = 20
    UNSETTLED_ENTRY = 21


# What the command says of a refusal, and the header, by its number; and of a number that they do not know. The lister
# gives neither SHORT_AREA nor FOLDS, so the command does not know these two.
WORDS = {
    Refusal.SHORT_AREA: "the listing area is too short: lend 4,608 bytes or more",
    Refusal.LONG_TEXT: "the text has over 16,384 bytes: shorten remarks and blanks, or split the book",
    Refusal.MARK: "the first line is not the mark DPB 0001: look for an empty input, a byte order mark before it, "
    "a carriage return after it, a mark of another version",
    Refusal.LAST_BYTE: "the last line has no line end: end it, and look whether the text was cut off",
    Refusal.LINE: "not a rule, a remark or an empty line: look for a missing colon, two colons, "
    "no name or two names before the colon",
    Refusal.NAMES: "this line has the 129th name: look for a name spelt in two ways, or split the book",
    Refusal.RULES: "this line is the 257th rule: drop rules given twice, or split the book",
    Refusal.ATOMS: "over 256 atoms, which are the names and one more for each rule whose head has several: "
    "give fewer names several rules",
    Refusal.FOLDS: "over 8 folds: ask for 0 to 8",
    Refusal.LONG_NAME: "a name of over 32 bytes: shorten it, or look for a blank or a colon left out",
    Refusal.BARRED_BYTE: "a byte that no rule has: look for a carriage return, an accent, a comma, a # that is not first",
}
NO_WORDS = "refused, under a number that this release has no words for"


class Printed:
    """the book that document 01 prints: its rules, names, held names, rounds by folds, atoms, c and h"""

    RULES = "p:q/q:p r/q:s/s:"
    NAMES = "p q r s"
    HELD = "p q s"
    ROUNDS = {0: 4, 1: 4, FOLDS: 4}
    ATOMS = 6
    C = 3
    H = 1


def head_line(names, held, folds, rounds):
    return "%s names=%d held=%d folds=%d rounds=%d\n" % (LISTED, names, held, folds, rounds)


def printed_listing(folds):
    """the listing of the printed book"""
    held = Printed.HELD.split()
    return head_line(len(Printed.NAMES.split()), len(held), folds, Printed.ROUNDS[folds]) + "".join(name + "\n" for name in held)


def for_bash():
    """assignments that a script evaluates: each limit, each refusal as REFUSED_.., its words as WORDS_.. with its
    number, the printed book and its listing with \\n for line ends"""
    limits = {name: value for name, value in globals().items() if name.isupper() and isinstance(value, int)}
    refusals = {"REFUSED_" + name: value for name, value in vars(Refusal).items() if name.isupper()}
    words = {"NO_WORDS": NO_WORDS, **{"WORDS_%d" % number: text for number, text in WORDS.items()}}
    printed = MARK.decode() + Printed.RULES.replace("/", "\n") + "\n"
    texts = {**words, "PRINTED": printed, "PRINTED_LISTING": printed_listing(FOLDS)}
    quoted = {name: "'%s'" % text.replace("\n", "\\n") for name, text in texts.items()}
    return "".join("%s=%s\n" % entry for entry in {**limits, **refusals, **quoted}.items())


if __name__ == "__main__":
    print(for_bash(), end="")
