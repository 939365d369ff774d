/* Refusals: the mark, line ends, bad lines, the order of causes; and each byte value, in names, bodies and lines. */
#include "calls.h"

#include <stdio.h>

static void marks(void)
{
    struct text *t;

    for (size_t len = 0; len < MARK_BYTES; len++) {
        t = marked();
        t->len = len;
        refused("mark cut short", t, 8, REFUSED_MARK, 0);
    }
    for (size_t at = 0; at < MARK_BYTES; at++) {
        t = book_of("a:");
        t->bytes[at] ^= 0x20;
        refused("mark with another byte", t, 8, REFUSED_MARK, 0);
        t = marked();
        t->bytes[at]++;
        refused("mark with another byte, alone", t, 8, REFUSED_MARK, 0);
    }
    t = empty();
    add(t, "DPB 0001\r\na:\n");
    refused("carriage return in the mark", t, 8, REFUSED_MARK, 0);
    t = empty();
    add(t, "\xEF\xBB\xBF" "DPB 0001\na:\n");
    refused("byte order mark", t, 8, REFUSED_MARK, 0);
}

static void line_ends(void)
{
    struct text *t;

    t = marked();
    add(t, "a:");
    refused("last line without an end", t, 8, REFUSED_LAST_BYTE, 0);
    t = marked();
    add(t, " ");
    refused("last line a blank without an end", t, 8, REFUSED_LAST_BYTE, 0);
    t = marked();
    add(t, "#");
    refused("last line a remark without an end", t, 8, REFUSED_LAST_BYTE, 0);
    t = marked();
    add_bytes(t, "a:\n", 4);
    refused("zero byte after the last line", t, 8, REFUSED_LAST_BYTE, 0);
}

struct bad {
    const char *rules;
    unsigned line;
};

/* The fault is a colon, a second name before it, or the line's end. */
static const struct bad of_no_form[] = {
    {"a", 2}, {"a ", 2}, {LONG_NAME, 2}, {"a:/b", 3}, {"a:///b", 5}, {"a:b/a/b", 3}, {"a/b", 2},
    {":", 2}, {" :a", 2}, {":" LONG_NAME "0", 2}, {": \r", 2}, {"a::", 2}, {"a: :\r", 2}, {"a::" LONG_NAME "0", 2},
    {"a:b:", 2}, {"a:b:c", 2}, {"a:" LONG_NAME ":", 2},
    {"a b", 2}, {"a b:", 2}, {"a b\r", 2}, {"a b!c:", 2}, {"a " LONG_NAME "0", 2}, {LONG_NAME "\tb:", 2}, {"DPB 0001", 2},
};

/* The fault is the byte past a name as long as can be. */
static const struct bad overlong[] = {
    {LONG_NAME "0", 2}, {LONG_NAME "0:b", 2}, {"a:/\t" LONG_NAME "0 :", 3}, {LONG_NAME "0\r", 2}, {LONG_NAME "0 b:", 2}, {LONG_NAME "0::", 2},
    {"a:" LONG_NAME "0", 2}, {"a: b " LONG_NAME " " LONG_NAME "0 c", 2}, {"a:b " LONG_NAME "0!", 2}, {"a:" LONG_NAME "0:", 2},
    {"a:" LONG_NAME "0 # b", 2}, {"a:" LONG_NAME LONG_NAME, 2}, {LONG_NAME "0:" LONG_NAME "0", 2}, {"#/a:b/a:" LONG_NAME "0/a:\r", 4},
};

/* The fault is a byte that is neither of a name nor a blank nor a colon. */
static const struct bad barred[] = {
    {"#/#/ #", 4}, {" # a", 2}, {"a: # b", 2}, {"a:b#", 2}, {"a #b:", 2}, {"!x", 2}, {"!:a b", 2}, {"@1", 2},
    {"\r", 2}, {"\t \r", 2}, {"a\r", 2}, {"a \r", 2}, {LONG_NAME "\r", 2}, {"a:\r", 2}, {"a:b\r", 2}, {"a:b \r", 2}, {"a:/a:b\r/a:", 3},
    {"a!:b", 2}, {"a:b,c", 2}, {"a:\v", 2}, {"a:\xE4", 2}, {"a:b/c:d/e;f", 4}, {"a:b " LONG_NAME "@", 2},
    {"@" LONG_NAME "0:", 2}, {"a:! " LONG_NAME "0", 2}, {"a:!:", 2}, {"a! b", 2}, {"#/a:b/a:\r/a:" LONG_NAME "0", 4},
};

static void bad_lines_of(const struct bad *bad, size_t count, unsigned number)
{
    char label[160];

    for (size_t i = 0; i < count; i++) {
        snprintf(label, sizeof label, "bad line in '%s'", bad[i].rules);
        refused(label, book_of(bad[i].rules), 8, number, bad[i].line);
    }
}

static void bad_lines(void)
{
    struct text *t;

    bad_lines_of(of_no_form, COUNT(of_no_form), REFUSED_LINE);
    bad_lines_of(overlong, COUNT(overlong), REFUSED_LONG_NAME);
    bad_lines_of(barred, COUNT(barred), REFUSED_BARRED_BYTE);
    t = marked();
    add_bytes(t, "a:\n\0\n", 5);
    refused("bad line: a zero byte", t, 8, REFUSED_BARRED_BYTE, 3);
    t = marked();
    add_bytes(t, "a:\0:\n", 5);
    refused("bad line: a zero byte before a colon", t, 8, REFUSED_BARRED_BYTE, 2);
}

/* The order of causes: the area, the length, the folds, the mark, the last byte, the lines downward (form, rules, names), atoms. */
static void order(void)
{
    struct text *t = empty();

    add_times(t, TEXT_BYTES + 1, "x");
    refused_room("a short area before length, folds, mark, last byte", t, FOLDS + 1, LISTING_BYTES - 1);
    refused("length before folds, mark, last byte", t, FOLDS + 1, REFUSED_LONG_TEXT, 0);
    t->len = TEXT_BYTES;
    refused_room("a short area before folds, mark, last byte", t, FOLDS + 1, LISTING_BYTES - 1);
    refused("folds before mark, last byte", t, FOLDS + 1, REFUSED_FOLDS, 0);
    refused("mark before last byte", t, 8, REFUSED_MARK, 0);
    t = marked();
    add(t, "a\na");
    refused("folds before last byte, line", t, FOLDS + 1, REFUSED_FOLDS, 0);
    refused("last byte before line", t, 8, REFUSED_LAST_BYTE, 0);
    t = book_of("a");
    refused_room("a short area before line", t, 8, LISTING_BYTES - 1);
    refused("folds before line", t, FOLDS + 1, REFUSED_FOLDS, 0);
    t = empty();
    refused("folds before mark on an empty text", t, FOLDS + 1, REFUSED_FOLDS, 0);
    refused("empty text", t, 8, REFUSED_MARK, 0);
}

/*
 * The form of a line comes before its room for a rule and for names, whatever is
 * wrong with it. The mark is line 1: rule i, from 1, is in line i + 1.
 */
static void order_of_form(const char *fault, unsigned number)
{
    struct text *t;

    t = marked();
    facts(t, 0, NAMES);
    add(t, "over: n1 n2 %s\n", fault);
    refused("form before names in one line", t, 8, number, NAMES + 2);
    t = marked();
    facts(t, 0, NAMES);
    add(t, "n0: n1 over %s\n", fault);
    refused("form before names in one body", t, 8, number, NAMES + 2);
    t = marked();
    facts(t, 0, NAMES);
    add(t, "over:\nn0: %s\n", fault);
    refused("names in a line above a bad form", t, 8, REFUSED_NAMES, NAMES + 2);

    t = marked();
    add_times(t, RULES, "a:\n");
    add(t, "a: %s\n", fault);
    refused("form before rules in one line", t, 8, number, RULES + 2);
    t = marked();
    add_times(t, RULES, "a:\n");
    add(t, "a:\na: %s\n", fault);
    refused("rules in a line above a bad form", t, 8, REFUSED_RULES, RULES + 2);
    t = marked();
    add_times(t, RULES - 1, "a:\n");
    add(t, "a:\na: %s\n", fault);
    refused("form before atoms", t, 8, number, RULES + 2);
    t = marked();
    facts(t, 0, NAMES);
    add_times(t, RULES - NAMES, "n0:\n");
    add(t, "over: more %s\n", fault);
    refused("form before rules and names in one line", t, 8, number, RULES + 2);
}

static void order_of_lines(void)
{
    struct text *t;

    order_of_form(":", REFUSED_LINE);
    order_of_form(LONG_NAME "0", REFUSED_LONG_NAME);
    order_of_form("\r", REFUSED_BARRED_BYTE);

    t = marked();
    facts(t, 0, NAMES);
    add_times(t, RULES - NAMES, "n0:\n");
    add(t, "over: more\n");
    refused("rules before names in one line", t, 8, REFUSED_RULES, RULES + 2);
    t = marked();
    facts(t, 0, NAMES);
    add_times(t, RULES - NAMES - 1, "n0:\n");
    add(t, "over: more\nn0:\n");
    refused("names in a line above rules", t, 8, REFUSED_NAMES, RULES + 1);
}

/* ---- each byte value, in four places of a line */

static int in_names(unsigned byte)
{
    return (byte >= 'a' && byte <= 'z') || (byte >= 'A' && byte <= 'Z') || (byte >= '0' && byte <= '9') ||
           byte == '.' || byte == '_' || byte == '-';
}

static int small(unsigned byte)
{
    return (int)(byte >= 'A' && byte <= 'Z' ? byte + 32 : byte);
}

/* the number for a byte at fault that is not past a long name */
static unsigned fault_of(unsigned byte)
{
    return in_names(byte) || byte == ' ' || byte == '\t' || byte == '\n' || byte == ':' ? REFUSED_LINE : REFUSED_BARRED_BYTE;
}

static void byte_in_a_name(unsigned byte)
{
    struct text *t = marked();
    char label[60], want[80];

    snprintf(label, sizeof label, "byte 0x%02x within a head", byte);
    add(t, "k");
    add_byte(t, byte);
    add(t, "m:\n");
    if (in_names(byte)) {
        snprintf(want, sizeof want, "DPL 0001 names=1 held=1 folds=8 rounds=1\nk%cm\n", small(byte));
        listed(label, t, 8, want);
    } else {
        refused(label, t, 8, fault_of(byte), 2);
    }
}

static void byte_after_a_long_name(unsigned byte)
{
    struct text *t = marked();
    char label[60];

    snprintf(label, sizeof label, "byte 0x%02x after a long name", byte);
    add(t, LONG_NAME);
    add_byte(t, byte);
    add(t, ":\n");
    if (byte == ' ' || byte == '\t')
        listed(label, t, 8, "DPL 0001 names=1 held=1 folds=8 rounds=1\n" LONG_NAME "\n");
    else
        refused(label, t, 8, in_names(byte) ? REFUSED_LONG_NAME : fault_of(byte), 2);
}

static void byte_in_a_body(unsigned byte)
{
    struct text *t = marked();
    char label[60];

    snprintf(label, sizeof label, "byte 0x%02x as a body", byte);
    add(t, "lone:");
    add_byte(t, byte);
    add(t, "\n");
    if (in_names(byte))
        listed(label, t, 8, "DPL 0001 names=2 held=0 folds=8 rounds=1\n");
    else if (byte == ' ' || byte == '\t' || byte == '\n')
        listed(label, t, 8, "DPL 0001 names=1 held=1 folds=8 rounds=1\nlone\n");
    else
        refused(label, t, 8, fault_of(byte), 2);
}

static void byte_as_a_line(unsigned byte)
{
    struct text *t = marked();
    char label[60];

    snprintf(label, sizeof label, "byte 0x%02x as a line", byte);
    add_byte(t, byte);
    add(t, "\n");
    if (byte == '#' || byte == ' ' || byte == '\t' || byte == '\n')
        listed(label, t, 8, "DPL 0001 names=0 held=0 folds=8 rounds=1\n");
    else
        refused(label, t, 8, fault_of(byte), 2);
}

static void byte_values(void)
{
    struct text *t;

    for (unsigned byte = 0; byte < 256; byte++) {
        byte_in_a_name(byte);
        byte_after_a_long_name(byte);
        byte_in_a_body(byte);
        byte_as_a_line(byte);
    }
    t = marked();
    add(t, "#");
    for (unsigned byte = 0; byte < 256; byte++)
        if (byte != '\n')
            add_byte(t, byte);
    add(t, "\n");
    listed("a remark of all bytes", t, 8, "DPL 0001 names=0 held=0 folds=8 rounds=1\n");
}

void refusals(void)
{
    marks();
    line_ends();
    bad_lines();
    order();
    order_of_lines();
    byte_values();
}
