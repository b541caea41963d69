/* Fuzz target of turns. Input, where what is missing counts as zeros: u16 line number of a progress record and two u16 quotas, where
 * 0xFF00 to 0xFFFF stand for the greatest numbers; u16 split point, then that many bytes of node file, then the certificate. Turns are
 * taken from that record, and in a list from a begun one. */
#include "target.h"

/* About how many turns of a list check lines. */
enum { TURNS = 16 };

/* Both files, each in a block of just its size, what one call says of them, and how many lines there are where no check before lines
 * refuses. */
typedef struct {
    uint8_t *node, *cert;
    size_t node_length, cert_length;
    conuhawe_answer check;
    int has_lines;
    size_t base, lines;
} files;

static int is_before_lines(size_t number)
{
    return (number >= 1 && number <= 8) || number == 23 || (number >= 11 && number <= 15);
}

/* Whether some line from one number to another has no literals: a second reading. */
static int has_empty_line(files f, size_t from, size_t to)
{
    const uint8_t *lines = f.cert + f.cert_length - 16 - 80 * f.lines;
    for (size_t i = from; i < to; i++)
        if (lines[80 * i + 1] == 0)
            return 1;
    return 0;
}

/* The answer of a turn that reaches the end and is refused at none of its lines: 21 by a second reading of all lines. */
static void check_end(files f, conuhawe_answer a)
{
    if (!has_empty_line(f, 0, f.base))
        CHECK(a.number == CONUHAWE_NO_EMPTY_LINE && a.place == CONUHAWE_BASE);
    else if (!has_empty_line(f, f.base, f.lines))
        CHECK(a.number == CONUHAWE_NO_EMPTY_LINE && a.place == CONUHAWE_STEP);
    else
        CHECK(a.number == CONUHAWE_ACCEPTED);
}

/* The answer of a turn of n lines from a line on, where no check before lines refuses and the record is not past the last line. */
static void check_lines(files f, conuhawe_answer a, size_t line, size_t n)
{
    check_certificate_answer(a, f.cert, f.cert_length);
    if (a.place == CONUHAWE_LINE)
        CHECK(a.number >= 16 && a.number <= 22 && line <= a.index && a.index < line + n);
    else if (line + n == f.lines)
        check_end(f, a);
    else
        CHECK(a.number == CONUHAWE_UNFINISHED);
}

/* A turn, and what holds of each by itself. */
static conuhawe_turned turn(files f, conuhawe_progress given, size_t quota)
{
    conuhawe_turned t = conuhawe_turn(f.node, f.node_length, f.cert, f.cert_length, given, quota);
    size_t moved = 0;
    if (!f.has_lines) {
        CHECK(same_answer(t.answer, f.check));
    } else if (given.line > f.lines) {
        CHECK(t.answer.number == CONUHAWE_PROGRESS);
        check_shape(t.answer, 0, 0, 0);
    } else {
        size_t left = f.lines - given.line, n = quota < left ? quota : left;
        check_lines(f, t.answer, given.line, n);
        if (t.answer.place == CONUHAWE_NO_PLACE)
            moved = n;
    }
    CHECK(t.checked == moved && t.progress.line == given.line + moved);
    return t;
}

/* Two turns in a row are one of both quotas, but that the second, where it is refused, stays where it began. */
static void check_two(files f, conuhawe_progress given, size_t a, size_t b)
{
    conuhawe_turned first = turn(f, given, a), both = turn(f, given, a < SIZE_MAX - b ? a + b : SIZE_MAX), last = first;
    if (first.answer.number == CONUHAWE_UNFINISHED)
        last = turn(f, first.progress, b);
    CHECK(same_answer(last.answer, both.answer));
    if (both.answer.place == CONUHAWE_NO_PLACE)
        CHECK(last.progress.line == both.progress.line);
}

/* From a begun record on: the first answer that is not unfinished is that of one call, and where it is accepted all lines are checked.
 * Of every two turns one checks a line at least, and a sixteenth of all. */
static void check_list(files f, size_t a, size_t b)
{
    size_t least = f.lines / TURNS + 1, checked = 0;
    conuhawe_progress at = conuhawe_turns_begin();
    conuhawe_turned t;
    CHECK(at.line == 0);
    for (size_t i = 0;; i++) {
        t = turn(f, at, i % 2 == 0 ? a : b < least ? least : b);
        at = t.progress;
        checked += t.checked;
        if (t.answer.number != CONUHAWE_UNFINISHED)
            break;
    }
    CHECK(same_answer(t.answer, f.check));
    CHECK(t.answer.number != CONUHAWE_ACCEPTED || checked == f.lines);
}

static size_t wide(size_t number)
{
    return number < 0xFF00 ? number : SIZE_MAX - (0xFFFF - number);
}

int LLVMFuzzerTestOneInput(const uint8_t *data, size_t size)
{
    source from = {data, size};
    uint8_t head[8];
    take(&from, head, sizeof head);
    size_t line = wide(u16_at(head)), a = wide(u16_at(head + 2)), b = wide(u16_at(head + 4)), split = u16_at(head + 6);
    size_t n = split < from.left ? split : from.left, c = from.left - n;
    files f = {.node = block(from.bytes, n), .cert = block(from.bytes + n, c), .node_length = n, .cert_length = c};
    f.check = conuhawe_check(f.node, n, f.cert, c);
    f.has_lines = !is_before_lines(f.check.number);
    if (f.has_lines) {
        f.base = u16_at(f.cert + c - 10);
        f.lines = f.base + u16_at(f.cert + c - 8);
    }

    conuhawe_progress given = {line};
    check_two(f, given, a, b);
    check_two(f, given, 0, 1);
    check_list(f, a, b);

    CHECK(memcmp(f.node, from.bytes, n) == 0 && memcmp(f.cert, from.bytes + n, c) == 0);
    free(f.node);
    free(f.cert);
    return 0;
}
