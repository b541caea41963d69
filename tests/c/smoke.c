/* Calls every function of include/conuhawe.h. Arguments: a node file and a certificate, examples/two-bands. */
#include "conuhawe.h"

#include <assert.h>
#include <stdio.h>
#include <stdlib.h>
#include <string.h>

static_assert(sizeof(conuhawe_answer) == 48, "an answer is six numbers");
static_assert(sizeof(conuhawe_progress) == 8, "a progress record is one number");
static_assert(sizeof(conuhawe_turned) == 64, "an answer and two numbers more");
static_assert(offsetof(conuhawe_turned, progress) == 48, "the answer comes first");
static_assert(offsetof(conuhawe_turned, checked) == 56, "a number before it");
static_assert(sizeof(conuhawe_looked_up) == 56, "an answer and a value");
static_assert(offsetof(conuhawe_looked_up, value) == 48, "the answer comes first");
static_assert(sizeof(conuhawe_session) == 2080, "a record has no padding");
static_assert(offsetof(conuhawe_session, last) == 8, "the length comes first");
static_assert(offsetof(conuhawe_session, trial) == 520, "64 values of the last instant before it");
static_assert(offsetof(conuhawe_session, file) == 1032, "64 values of the trial before it");
static_assert(offsetof(conuhawe_session, started) == 2072, "1,040 bytes of the file before it");
static_assert(offsetof(conuhawe_session, held) == 2073, "a byte before it");
static_assert(offsetof(conuhawe_session, spare) == 2074, "a byte before it");

typedef struct {
    uint8_t bytes[65536];
    size_t length;
} file;

static file read_file(const char *path)
{
    static file f;
    FILE *in = fopen(path, "rb");
    if (!in) {
        perror(path);
        exit(1);
    }
    f.length = fread(f.bytes, 1, sizeof f.bytes, in);
    fclose(in);
    return f;
}

/* A file in a block of just its size, so that a read past it is seen by valgrind. */
static uint8_t *block(file f, size_t note)
{
    uint8_t *b = malloc(note + f.length);
    if (!b)
        exit(1);
    memset(b, 'n', note);
    memcpy(b + note, f.bytes, f.length);
    return b;
}

static int failures;

static void expect(const char *what, conuhawe_answer got, size_t number, size_t place, size_t index, size_t a, size_t b, size_t c)
{
    conuhawe_answer want = {number, place, index, {a, b, c}};
    if (memcmp(&got, &want, sizeof got) == 0)
        return;
    failures++;
    printf("%s: number %zu place %zu index %zu values %zu %zu %zu\n", what, got.number, got.place, got.index, got.value[0],
           got.value[1], got.value[2]);
}

static void expect_true(const char *what, int ok)
{
    if (ok)
        return;
    failures++;
    printf("%s\n", what);
}

static void check_files(file node, file cert)
{
    uint8_t *n = block(node, 0), *c = block(cert, 0);
    expect("read", conuhawe_read(n, node.length), 0, 0, 0, 6, 5, 0);
    expect("check", conuhawe_check(n, node.length, c, cert.length), 0, 0, 0, 1, 23, 12);
    expect("no node", conuhawe_check(n, 0, c, cert.length), CONUHAWE_NODE_LENGTH, CONUHAWE_FILE, 0, 0, 0, 0);
    expect("no certificate", conuhawe_check(n, node.length, c, 0), CONUHAWE_CERTIFICATE_LENGTH, CONUHAWE_FILE, 0, 0, 0, 0);
    n[16 * 3] = 16;
    expect("operator 16", conuhawe_read(n, node.length), CONUHAWE_RECORD_SHAPE, CONUHAWE_RECORD, 3, 0, 0, 0);
    n[16 * 3] = 3;
    /* line 1, {5, 4} of stream 5's equation at offset 0, becomes {!5, 4} */
    c[80 * 1 + 8] ^= 1;
    expect("equation", conuhawe_check(n, node.length, c, cert.length), CONUHAWE_EQUATION_LINE, CONUHAWE_LINE, 1, 0, 0, 0);
    c[80 * 1 + 8] ^= 1;
    /* line 2, a join of lines 0 and 1, cites line 0 twice */
    c[80 * 2 + 4] = 0;
    expect("join", conuhawe_check(n, node.length, c, cert.length), CONUHAWE_JOIN_LINE, CONUHAWE_LINE, 2, 0, 0, 0);
    /* line 0, the property's, has no constraint to be a cut */
    c[0] = 5;
    expect("cut", conuhawe_check(n, node.length, c, cert.length), CONUHAWE_CUT_LINE, CONUHAWE_LINE, 0, 0, 0, 0);
    free(n);
    free(c);
}

static void check_notes(file node, file cert)
{
    uint8_t *n = block(node, 5), *c = block(cert, 7);
    expect_true("node's note", conuhawe_node_note(n, 5 + node.length) == 5);
    expect_true("certificate's note", conuhawe_certificate_note(c, 7 + cert.length) == 7);
    expect_true("no note", conuhawe_node_note(n + 5, node.length) == 0);
    expect_true("a refused file's note", conuhawe_certificate_note(c, 7) == 0);
    expect("check with notes", conuhawe_check(n, 5 + node.length, c, 7 + cert.length), 0, 0, 0, 1, 23, 12);
    free(n);
    free(c);
}

/* Of the certificate with its version byte set: only version 2 is read, and another has no note. */
static void check_versions(file node, file cert)
{
    uint8_t *c = block(cert, 7);
    size_t length = 7 + cert.length;
    for (unsigned version = 0; version < 256; version++) {
        c[length - 14] = version;
        conuhawe_answer answer = conuhawe_check(node.bytes, node.length, c, length);
        if (version == 2)
            expect("version 2", answer, 0, 0, 0, 1, 23, 12);
        else
            expect("another version", answer, CONUHAWE_CERTIFICATE_FIXED_BYTES, CONUHAWE_FILE, 0, 0, 0, 0);
        expect_true("a version's note", conuhawe_certificate_note(c, length) == (version == 2 ? 7 : 0));
    }
    c[length - 14] = 2;
    /* line 0, {!5, !5 one instant later}, becomes {!5}, as version 1 had it */
    c[7 + 1] = 1;
    c[7 + 10] = 0;
    expect("instant 0 alone", conuhawe_check(node.bytes, node.length, c, length), CONUHAWE_PROPERTY_LINE, CONUHAWE_LINE, 0, 0, 0, 0);
    free(c);
}

/* Both files of the two bands, whose certificate has 23 lines in its base and 12 in its step. */
typedef struct {
    uint8_t *node, *cert;
    size_t node_length, cert_length;
} pair;

static conuhawe_turned turn(pair p, size_t line, size_t quota)
{
    conuhawe_progress progress = {line};
    return conuhawe_turn(p.node, p.node_length, p.cert, p.cert_length, progress, quota);
}

static void unfinished(const char *what, conuhawe_turned got, size_t line, size_t checked)
{
    expect(what, got.answer, CONUHAWE_UNFINISHED, CONUHAWE_NO_PLACE, 0, 0, 0, 0);
    expect_true(what, got.progress.line == line && got.checked == checked);
}

static void accepted(const char *what, conuhawe_turned got, size_t checked)
{
    expect(what, got.answer, CONUHAWE_ACCEPTED, CONUHAWE_NO_PLACE, 0, 1, 23, 12);
    expect_true(what, got.progress.line == 35 && got.checked == checked);
}

/* A turn that is refused leaves its record where it was. */
static void refused(const char *what, conuhawe_turned got, size_t line, size_t number, size_t place, size_t index)
{
    expect(what, got.answer, number, place, index, 0, 0, 0);
    expect_true(what, got.progress.line == line && got.checked == 0);
}

/* From the first line to the last, with every quota: as one call says, and all lines. */
static void check_in_turns(pair p)
{
    for (size_t quota = 1; quota <= 36; quota++) {
        conuhawe_progress at = conuhawe_turns_begin();
        conuhawe_turned got;
        size_t turns = 0, checked = 0;
        do {
            got = conuhawe_turn(p.node, p.node_length, p.cert, p.cert_length, at, quota);
            at = got.progress;
            checked += got.checked;
            turns++;
        } while (got.answer.number == CONUHAWE_UNFINISHED && turns < 100);
        expect("in turns", got.answer, CONUHAWE_ACCEPTED, CONUHAWE_NO_PLACE, 0, 1, 23, 12);
        expect_true("all lines", at.line == 35 && checked == 35 && turns == (35 + quota - 1) / quota);
    }
}

static void check_turns(file node, file cert)
{
    pair p = {block(node, 0), block(cert, 0), node.length, cert.length}, none = p;
    none.node_length = 0;
    expect_true("a begun record", conuhawe_turns_begin().line == 0);
    check_in_turns(p);
    unfinished("quota 0", turn(p, 0, 0), 0, 0);
    unfinished("quota 1", turn(p, 0, 1), 1, 1);
    unfinished("all but one", turn(p, 1, 33), 34, 33);
    accepted("the last", turn(p, 34, 1), 1);
    accepted("the rest", turn(p, 1, SIZE_MAX), 34);
    accepted("at the end", turn(p, 35, 0), 0);
    accepted("again", turn(p, 35, SIZE_MAX), 0);
    refused("past the last line", turn(p, 36, 1), 36, CONUHAWE_PROGRESS, CONUHAWE_FILE, 0);
    refused("past any line", turn(p, SIZE_MAX, SIZE_MAX), SIZE_MAX, CONUHAWE_PROGRESS, CONUHAWE_FILE, 0);
    refused("no node", turn(none, 36, 1), 36, CONUHAWE_NODE_LENGTH, CONUHAWE_FILE, 0);

    /* line 13, a join of lower lines, cites itself */
    p.cert[80 * 13 + 2] = 13;
    refused("in the first turn", turn(p, 0, SIZE_MAX), 0, CONUHAWE_JOIN_LINE, CONUHAWE_LINE, 13);
    refused("in a later turn", turn(p, 4, 10), 4, CONUHAWE_JOIN_LINE, CONUHAWE_LINE, 13);
    unfinished("before it", turn(p, 4, 9), 13, 9);
    refused("at it", turn(p, 13, 1), 13, CONUHAWE_JOIN_LINE, CONUHAWE_LINE, 13);
    accepted("a forged record skips it", turn(p, 14, 100), 21);

    /* the step's last line is no longer empty */
    p.cert[80 * 34 + 1] = 1;
    p.cert[80 * 34 + 8] = 10;
    refused("no empty line", turn(p, 14, SIZE_MAX), 14, CONUHAWE_NO_EMPTY_LINE, CONUHAWE_STEP, 0);
    refused("no empty line, at the end", turn(p, 35, 0), 35, CONUHAWE_NO_EMPTY_LINE, CONUHAWE_STEP, 0);
    unfinished("not looked for before", turn(p, 14, 20), 34, 20);
    free(p.node);
    free(p.cert);
}

/* A call that is refused, an instant's and a trial, leaves the record and the values. */
static void refuses(const char *what, conuhawe_session *s, const int64_t *inputs, size_t count, size_t room, size_t number,
                    size_t place, size_t index)
{
    conuhawe_session before = *s;
    int64_t values[6] = {-1, -2, -3, -4, -5, -6}, same[6];
    memcpy(same, values, sizeof same);
    expect(what, conuhawe_instant(s, inputs, count, values, room), number, place, index, 0, 0, 0);
    expect(what, conuhawe_trial(s, inputs, count, values, room), number, place, index, 0, 0, 0);
    expect_true(what, memcmp(&before, s, sizeof before) == 0 && memcmp(values, same, sizeof same) == 0);
}

/* A commit that is refused leaves the record. */
static void refuses_commit(const char *what, conuhawe_session *s, size_t number)
{
    conuhawe_session before = *s;
    expect(what, conuhawe_commit(s), number, CONUHAWE_FILE, 0, 0, 0, 0);
    expect_true(what, memcmp(&before, s, sizeof before) == 0);
}

static void check_session(file node)
{
    static const int64_t inputs[3][2] = {{1, 1}, {0, 1}, {1, 0}};
    static const int64_t wanted[3][6] = {{1, 1, 0, 0, 0, 1}, {0, 1, 1, 1, 0, 1}, {1, 0, 0, 0, 0, 1}};
    conuhawe_session *s = malloc(sizeof *s);
    if (!s)
        exit(1);
    memset(s, 0xab, sizeof *s);
    refuses("no node", s, inputs[0], 2, 6, CONUHAWE_NO_NODE, CONUHAWE_FILE, 0);
    refuses_commit("commit, no node", s, CONUHAWE_NO_NODE);

    conuhawe_session before = *s;
    expect("begin on nothing", conuhawe_begin(s, node.bytes, 0), CONUHAWE_NODE_LENGTH, CONUHAWE_FILE, 0, 0, 0, 0);
    expect_true("a refused beginning leaves the record", memcmp(&before, s, sizeof before) == 0);

    expect("begin", conuhawe_begin(s, node.bytes, node.length), 0, 0, 0, 6, 5, 0);
    for (int t = 0; t < 3; t++) {
        int64_t values[6];
        memset(values, 0xab, sizeof values);
        expect("instant", conuhawe_instant(s, inputs[t], 2, values, 6), 0, 0, 0, 0, 0, 0);
        expect_true("values", memcmp(values, wanted[t], sizeof values) == 0);
    }

    static const int64_t two[2] = {1, 2};
    refuses("input count", s, inputs[0], 1, 6, CONUHAWE_INPUT_COUNT, CONUHAWE_FILE, 0);
    refuses("slice length", s, inputs[0], 2, 5, CONUHAWE_SLICE_LENGTH, CONUHAWE_FILE, 0);
    refuses("bool input", s, two, 2, 6, CONUHAWE_BOOL_INPUT, CONUHAWE_RECORD, 1);
    s->started = 7;
    s->spare[5] = 9;
    refuses("bool input, started 7", s, two, 2, 6, CONUHAWE_BOOL_INPUT, CONUHAWE_RECORD, 1);
    s->last[3] = 2;
    refuses("a bool of the last instant is 2", s, inputs[0], 2, 6, CONUHAWE_NO_NODE, CONUHAWE_FILE, 0);
    free(s);
}

/* The two bands with their last record first, so that the property is 0 and the inputs are 4 and 5. */
static file reversed(file node)
{
    static const uint8_t records[6][16] = {
        {2, 0, 1},       /* not 1 */
        {3, 0, 5, 0, 2}, /* 5 and 2 */
        {3, 0, 4, 0, 3}, /* 4 and 3 */
        {2, 0, 5},       /* not 5 */
    };
    memcpy(node.bytes, records, sizeof records);
    node.bytes[node.length - 10] = 0;
    return node;
}

/* Records in an order in which operands needed now come later, and in none. */
static void check_orders(file node, file cert)
{
    static const int64_t inputs[2][2] = {{1, 1}, {1, 0}};
    static const int64_t wanted[2][6] = {{1, 0, 0, 0, 1, 1}, {1, 0, 1, 1, 1, 0}};
    node = reversed(node);
    uint8_t *n = block(node, 3), *c = block(cert, 0);
    size_t length = 3 + node.length;
    conuhawe_session *s = calloc(1, sizeof *s);
    if (!s)
        exit(1);
    expect("read reversed", conuhawe_read(n, length), 0, 0, 0, 6, 0, 0);
    expect_true("its note", conuhawe_node_note(n, length) == 3);
    expect("begin reversed", conuhawe_begin(s, n, length), 0, 0, 0, 6, 0, 0);
    for (int t = 0; t < 2; t++) {
        int64_t values[6] = {-1, -2, -3, -4, -5, -6};
        expect("instant reversed", conuhawe_instant(s, inputs[t], 2, values, 6), 0, 0, 0, 0, 0, 0);
        expect_true("values reversed", memcmp(values, wanted[t], sizeof values) == 0);
    }
    expect("another's certificate", conuhawe_check(n, length, c, cert.length), CONUHAWE_PROPERTY_LINE, CONUHAWE_LINE, 0, 0, 0, 0);

    /* 3 becomes not 1: 1, 2 and 3 lead back to themselves, and 0 waits for them */
    conuhawe_session before = *s;
    n[3 + 16 * 3 + 2] = 1;
    expect("a loop", conuhawe_read(n, length), CONUHAWE_NO_ORDER, CONUHAWE_RECORD, 0, 0, 0, 0);
    expect("check a loop", conuhawe_check(n, length, c, cert.length), CONUHAWE_NO_ORDER, CONUHAWE_RECORD, 0, 0, 0, 0);
    expect("begin on a loop", conuhawe_begin(s, n, length), CONUHAWE_NO_ORDER, CONUHAWE_RECORD, 0, 0, 0, 0);
    expect_true("a loop leaves the record", memcmp(&before, s, sizeof before) == 0);
    expect_true("a loop's note", conuhawe_node_note(n, length) == 0);
    n[3 + 2] = 4;
    expect("a loop, not waited for", conuhawe_read(n, length), CONUHAWE_NO_ORDER, CONUHAWE_RECORD, 1, 0, 0, 0);
    s->file[16 * 3 + 2] = 1;
    refuses("a loop in the record", s, inputs[0], 2, 6, CONUHAWE_NO_NODE, CONUHAWE_FILE, 0);
    refuses_commit("a loop, and no trial", s, CONUHAWE_NO_NODE);
    free(n);
    free(c);
    free(s);
}

/* A level that rises by an input and is held at 100, as a file, and its ranges. */
static const uint8_t held[8][16] = {
    {1, 0, 0, 0, 0, 0, 0, 0, 1},   /* 0 is true, the property */
    {0, 1},                        /* 1 an input */
    {1, 1},                        /* 2 is 0 */
    {1, 1, 0, 0, 0, 0, 0, 0, 100}, /* 3 is 100 */
    {13, 1, 2, 0, 6},              /* 4 = 2 -> pre 6 */
    {6, 1, 4, 0, 1},               /* 5 = 4 + 1 */
    {14, 1, 5, 0, 3},              /* 6 the lesser of 5 and 3 */
    {0x4C, 0x4E, 1, 0, 7, 0, 0, 0, 128},
};
static const int64_t ends[7][2] = {{0, 0}, {0, 5}, {0, 0}, {100, 100}, {0, 100}, {0, 105}, {0, 100}};

/* A table of ranges with one number set. */
static conuhawe_answer ranges_with(const uint8_t *node, size_t length, size_t stream, size_t end, int64_t number)
{
    int64_t *table = malloc(sizeof ends);
    if (!table)
        exit(1);
    memcpy(table, ends, sizeof ends);
    table[2 * stream + end] = number;
    conuhawe_answer a = conuhawe_ranges(node, length, table, 14);
    free(table);
    return a;
}

static void check_ranges(void)
{
    const int64_t *table = &ends[0][0];
    size_t length = sizeof held;
    uint8_t n[sizeof held];
    memcpy(n, held, length);
    expect("listed", conuhawe_ranges(n, length, table, 14), 0, 0, 0, 0, 0, 0);
    expect("a number short", conuhawe_ranges(n, length, table, 13), CONUHAWE_RANGES_TABLE, CONUHAWE_FILE, 0, 0, 0, 0);
    expect("no table", conuhawe_ranges(n, length, table, 0), CONUHAWE_RANGES_TABLE, CONUHAWE_FILE, 0, 0, 0, 0);
    expect("a bool's end", ranges_with(n, length, 0, 1, 1), CONUHAWE_RANGES_TABLE, CONUHAWE_FILE, 0, 0, 0, 0);
    expect("reversed", ranges_with(n, length, 1, 0, 6), CONUHAWE_RANGES_TABLE, CONUHAWE_FILE, 0, 0, 0, 0);
    expect("too large", ranges_with(n, length, 5, 1, 4000000001), CONUHAWE_RANGES_TABLE, CONUHAWE_FILE, 0, 0, 0, 0);
    expect("at the limit", ranges_with(n, length, 6, 0, -4000000000), CONUHAWE_RANGE_NOT_INSIDE, CONUHAWE_RECORD, 4, 0, 0, 0);
    expect("narrow sum", ranges_with(n, length, 5, 1, 104), CONUHAWE_RANGE_NOT_INSIDE, CONUHAWE_RECORD, 5, 0, 0, 0);
    expect("narrow level", ranges_with(n, length, 6, 0, 1), CONUHAWE_RANGE_NOT_INSIDE, CONUHAWE_RECORD, 6, 0, 0, 0);
    n[96] = 15;
    expect("the greater", conuhawe_ranges(n, length, table, 14), CONUHAWE_RANGE_NOT_INSIDE, CONUHAWE_RECORD, 6, 0, 0, 0);
    n[96] = 16;
    expect("the node's own", conuhawe_ranges(n, length, table, 0), CONUHAWE_RECORD_SHAPE, CONUHAWE_RECORD, 6, 0, 0, 0);
    expect("no node at all", conuhawe_ranges(n, 0, table, 14), CONUHAWE_NODE_LENGTH, CONUHAWE_FILE, 0, 0, 0, 0);
}

/* An instant's call or a trial on the held level, which is below 96. */
static void expect_level(const char *what, conuhawe_answer (*call)(conuhawe_session *, const int64_t *, size_t, int64_t *, size_t),
                         conuhawe_session *s, int64_t input, int64_t before)
{
    const int64_t wanted[7] = {1, input, 0, 100, before, before + input, before + input};
    int64_t values[7];
    memset(values, 0xab, sizeof values);
    expect(what, call(s, &input, 1, values, 7), 0, 0, 0, 0, 0, 0);
    expect_true(what, memcmp(values, wanted, sizeof values) == 0);
}

/* Trials and a commit beside an instant's call: the same bytes, also with an earlier trial. */
static void check_trials(void)
{
    static const int64_t two[2] = {5, 5};
    conuhawe_session *s = malloc(sizeof *s), *at_once = malloc(sizeof *s);
    if (!s || !at_once)
        exit(1);
    memset(s, 0xab, sizeof *s);
    memset(at_once, 0xcd, sizeof *s);
    expect("begin tried", conuhawe_begin(s, &held[0][0], sizeof held), 0, 0, 0, 7, 0, 0);
    expect("begin at once", conuhawe_begin(at_once, &held[0][0], sizeof held), 0, 0, 0, 7, 0, 0);
    refuses_commit("commit at first", s, CONUHAWE_NO_TRIAL);
    for (int64_t t = 0; t < 10; t++) {
        expect_level("trial", conuhawe_trial, s, 4, 5 * t);
        expect_level("another trial", conuhawe_trial, s, 5, 5 * t);
        expect_true("a trial is held", s->held == 1 && s->started == (t > 0));
        refuses("too many inputs", s, two, 2, 6, CONUHAWE_INPUT_COUNT, CONUHAWE_FILE, 0);
        expect("commit", conuhawe_commit(s), 0, 0, 0, 0, 0, 0);
        expect_level("at once", conuhawe_instant, at_once, 5, 5 * t);
        expect_true("the same bytes", memcmp(s, at_once, sizeof *s) == 0);
        refuses_commit("commit again", s, CONUHAWE_NO_TRIAL);
    }
    free(s);
    free(at_once);
}

/* What becomes of a trial that is not committed, and of one whose bool is spoiled. */
static void check_held_trials(file node)
{
    static const int64_t inputs[2] = {1, 1};
    conuhawe_session *s = calloc(1, sizeof *s), *none = calloc(1, sizeof *s);
    int64_t values[6];
    if (!s || !none)
        exit(1);
    expect("begin", conuhawe_begin(none, node.bytes, node.length), 0, 0, 0, 6, 5, 0);
    *s = *none;
    expect("trial", conuhawe_trial(s, inputs, 2, values, 6), 0, 0, 0, 0, 0, 0);
    conuhawe_session tried = *s;
    expect("begin on nothing", conuhawe_begin(s, node.bytes, 0), CONUHAWE_NODE_LENGTH, CONUHAWE_FILE, 0, 0, 0, 0);
    expect_true("a refused beginning keeps a trial", memcmp(s, &tried, sizeof *s) == 0);
    expect("begin again", conuhawe_begin(s, node.bytes, node.length), 0, 0, 0, 6, 5, 0);
    expect_true("a beginning holds no trial", memcmp(s, none, sizeof *s) == 0);

    *s = tried;
    s->held = 200;
    s->trial[5] = 2;
    refuses("a bool of the trial is 2", s, inputs, 2, 6, CONUHAWE_NO_NODE, CONUHAWE_FILE, 0);
    refuses_commit("commit a bool that is 2", s, CONUHAWE_NO_NODE);
    s->held = 0;
    refuses_commit("no trial, whatever its slot", s, CONUHAWE_NO_TRIAL);
    expect("instant", conuhawe_instant(s, inputs, 2, values, 6), 0, 0, 0, 0, 0, 0);
    tried.held = 200;
    expect("commit, held by any byte", conuhawe_commit(&tried), 0, 0, 0, 0, 0, 0);
    expect_true("the same bytes", memcmp(s, &tried, sizeof *s) == 0);
    free(s);
    free(none);
}

/* The level climbs to 100 and stays. */
static void check_held(void)
{
    conuhawe_session *s = calloc(1, sizeof *s);
    if (!s)
        exit(1);
    int64_t input = 5, values[7];
    expect("begin held", conuhawe_begin(s, &held[0][0], sizeof held), 0, 0, 0, 7, 0, 0);
    for (int64_t t = 0; t < 40; t++) {
        int64_t before = t < 20 ? 5 * t : 100, after = t < 20 ? before + 5 : 100;
        const int64_t wanted[7] = {1, 5, 0, 100, before, before + 5, after};
        expect("instant held", conuhawe_instant(s, &input, 1, values, 7), 0, 0, 0, 0, 0, 0);
        expect_true("values held", memcmp(values, wanted, sizeof values) == 0);
    }
    free(s);
}

/* A look-up in a history that stands in a block of just its size. */
static conuhawe_looked_up look_up(const uint8_t *node, size_t length, size_t instants, const int64_t *inputs, size_t count,
                                  size_t stream, size_t instant)
{
    int64_t *given = malloc(count * sizeof *given);
    if (!given)
        exit(1);
    memcpy(given, inputs, count * sizeof *given);
    conuhawe_looked_up l = conuhawe_look_up(node, length, instants, given, count, stream, instant);
    expect_true("a history is not written", memcmp(given, inputs, count * sizeof *given) == 0);
    free(given);
    return l;
}

static void finds(const char *what, conuhawe_looked_up got, int64_t value)
{
    expect(what, got.answer, CONUHAWE_ACCEPTED, CONUHAWE_NO_PLACE, 0, 0, 0, 0);
    expect_true(what, got.value == value);
}

static void finds_none(const char *what, conuhawe_looked_up got, size_t number, size_t place, size_t index)
{
    expect(what, got.answer, number, place, index, 0, 0, 0);
    expect_true(what, got.value == 0);
}

/* The held level where each instant asks for 5, and then where one asks for too much. */
static void check_look_ups(void)
{
    const uint8_t *n = &held[0][0];
    size_t length = sizeof held;
    int64_t inputs[17];
    for (int t = 0; t < 17; t++)
        inputs[t] = 5;
    for (int64_t t = 0; t < 16; t++) {
        finds("the level", look_up(n, length, 16, inputs, 16, 6, t), 5 * t + 5);
        finds("the level before", look_up(n, length, 16, inputs, 16, 4, t), 5 * t);
    }
    finds("the property", look_up(n, length, 1, inputs, 1, 0, 0), 1);
    finds_none("no node", look_up(n, 0, 17, inputs, 3, 7, 17), CONUHAWE_NODE_LENGTH, CONUHAWE_FILE, 0);
    finds_none("input count", look_up(n, length, 17, inputs, 3, 7, 17), CONUHAWE_INPUT_COUNT, CONUHAWE_FILE, 0);
    finds_none("17 instants", look_up(n, length, 17, inputs, 17, 6, 0), CONUHAWE_NOT_IN_HISTORY, CONUHAWE_FILE, 0);
    finds_none("no stream", look_up(n, length, 16, inputs, 16, 7, 0), CONUHAWE_NOT_IN_HISTORY, CONUHAWE_FILE, 0);
    finds_none("no instant", look_up(n, length, 16, inputs, 16, 6, 16), CONUHAWE_NOT_IN_HISTORY, CONUHAWE_FILE, 0);
    finds_none("no instants", look_up(n, length, 0, inputs, 0, 0, 0), CONUHAWE_NOT_IN_HISTORY, CONUHAWE_FILE, 0);

    /* 5 and then the greatest number are too much, and 6, the lesser of that and 100, has visited it */
    inputs[1] = INT64_MAX;
    finds("before it", look_up(n, length, 16, inputs, 16, 6, 0), 5);
    finds("beside it", look_up(n, length, 16, inputs, 16, 4, 1), 5);
    finds_none("at it", look_up(n, length, 16, inputs, 16, 5, 1), CONUHAWE_OUTSIDE_RANGE, CONUHAWE_RECORD, 5);
    finds_none("after it", look_up(n, length, 16, inputs, 16, 6, 9), CONUHAWE_OUTSIDE_RANGE, CONUHAWE_RECORD, 6);
}

/* The two bands, whose inputs are bools: 33 comes before 65, and no product wraps around. */
static void check_bool_histories(file node)
{
    static const int64_t inputs[6] = {1, 1, 0, 1, 1, 2};
    uint8_t *n = block(node, 0);
    finds("a grant", look_up(n, node.length, 2, inputs, 4, 3, 1), 1);
    finds_none("bool input", look_up(n, node.length, 3, inputs, 6, 3, 0), CONUHAWE_BOOL_INPUT, CONUHAWE_RECORD, 1);
    finds_none("bool input first", look_up(n, node.length, 3, inputs, 6, 6, 3), CONUHAWE_BOOL_INPUT, CONUHAWE_RECORD, 1);
    finds_none("half of all", look_up(n, node.length, SIZE_MAX / 2 + 1, inputs, 0, 0, 0), CONUHAWE_INPUT_COUNT, CONUHAWE_FILE, 0);
    finds_none("far out", look_up(n, node.length, 2, inputs, 4, SIZE_MAX, SIZE_MAX), CONUHAWE_NOT_IN_HISTORY, CONUHAWE_FILE, 0);
    expect_true("a node is not written", memcmp(n, node.bytes, node.length) == 0);
    free(n);
}

int main(int argc, char **argv)
{
    if (argc != 3) {
        fprintf(stderr, "usage: smoke NODE CERTIFICATE\n");
        return 2;
    }
    file node = read_file(argv[1]), cert = read_file(argv[2]);
    check_files(node, cert);
    check_notes(node, cert);
    check_versions(node, cert);
    check_turns(node, cert);
    check_session(node);
    check_orders(node, cert);
    check_ranges();
    check_held();
    check_trials();
    check_held_trials(node);
    check_look_ups();
    check_bool_histories(node);
    printf("%s\n", failures ? "failed" : "ok");
    return failures != 0;
}
