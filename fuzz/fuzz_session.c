/* Fuzz target of the session's calls. Input, where what is missing counts as zeros: for each of eight events u8 which call (its two
 * lowest bits: instant, trial, commit, beginning), u8 slice length and u8 input count (128 and over: those of the node in the record);
 * a session record's 2,080 bytes; u16 length of a node file and its bytes; inputs, 8 bytes each. The events are run on the record as
 * it stands, then on the same record begun on the file. */
#include "target.h"

enum { EVENTS = 8 };
enum { INSTANT, TRIAL, COMMIT, BEGIN };

typedef struct {
    uint8_t call, room, count;
} event;

/* The node in a record, read here a second time: 0 streams where trailer and length do not fit. */
typedef struct {
    size_t streams, inputs;
    const uint8_t *records;
} shape;

static shape shape_of(const conuhawe_session *s)
{
    shape none = {0, 0, s->file}, it = none;
    if (s->length < 16 || s->length > sizeof s->file)
        return none;
    it.streams = u16_at(s->file + s->length - 12);
    if (it.streams < 1 || it.streams > 64 || 16 + 16 * it.streams > s->length)
        return none;
    it.records = s->file + s->length - 16 - 16 * it.streams;
    for (size_t i = 0; i < it.streams; i++)
        it.inputs += it.records[16 * i] == 0;
    return it;
}

static int is_bool(shape n, size_t i)
{
    return n.records[16 * i + 1] == 0;
}

static int one_bit(int64_t x)
{
    return x == 0 || x == 1;
}

static int bools_fit(shape n, const int64_t *values)
{
    for (size_t i = 0; i < n.streams; i++)
        if (is_bool(n, i) && !one_bit(values[i]))
            return 0;
    return 1;
}

/* Whether 30 lets the record pass: a second reading of what is looked at, but for the node's own rules. */
static int holds_node(const conuhawe_session *s, shape n)
{
    if (s->length > sizeof s->file || conuhawe_read(s->file, s->length).number != 0)
        return 0;
    return (s->started == 0 || bools_fit(n, s->last)) && (s->held == 0 || bools_fit(n, s->trial));
}

/* The lowest record that is a bool input and gets neither 0 nor 1; the stream count where there is none. */
static size_t first_bad_input(shape n, const int64_t *inputs)
{
    for (size_t i = 0, j = 0; i < n.streams; i++) {
        if (n.records[16 * i] != 0)
            continue;
        if (is_bool(n, i) && !one_bit(inputs[j]))
            return i;
        j++;
    }
    return n.streams;
}

/* The values, and zeros in the place of those that the node does not have. */
static void fill(int64_t *to, shape n, const int64_t *values)
{
    memset(to, 0, 64 * sizeof *to);
    memcpy(to, values, n.streams * sizeof *values);
}

/* What an accepted trial or instant's call leaves, byte for byte. */
static void check_accepted(uint8_t call, const conuhawe_session *before, const conuhawe_session *s, shape n, const int64_t *values)
{
    conuhawe_session wanted = *before;
    memset(wanted.spare, 0, sizeof wanted.spare);
    memset(wanted.trial, 0, sizeof wanted.trial);
    fill(call == TRIAL ? wanted.trial : wanted.last, n, values);
    wanted.held = call == TRIAL;
    if (call == INSTANT)
        wanted.started = 1;
    CHECK(memcmp(s, &wanted, sizeof wanted) == 0);
    CHECK(bools_fit(n, values));
}

/* The slice and the inputs of a call, each in a block of just its size. */
typedef struct {
    int64_t *inputs, *values;
    size_t count, room;
} lent;

static conuhawe_answer run(uint8_t call, conuhawe_session *s, lent l)
{
    return (call == TRIAL ? conuhawe_trial : conuhawe_instant)(s, l.inputs, l.count, l.values, l.room);
}

/* An instant's call is a trial and its commit, and what it gives does not depend on a trial that was held: the same answer, values
 * and record. */
static void check_other_ways(conuhawe_answer a, const conuhawe_session *before, const conuhawe_session *s, lent l)
{
    conuhawe_session *other = block(before, sizeof *before);
    lent again = l;
    again.values = calloc(l.room + 1, sizeof *l.values);
    CHECK(again.values);
    if (a.number == 0)
        other->held = 0;
    CHECK(same_answer(a, run(TRIAL, other, again)));
    if (a.number == 0) {
        CHECK(memcmp(again.values, l.values, l.room * sizeof *l.values) == 0);
        if (s->held == 0)
            CHECK(conuhawe_commit(other).number == 0);
        CHECK(memcmp(other, s, sizeof *s) == 0);
    }
    free(again.values);
    free(other);
}

/* 31 to 34 of an answer that is not 30. */
static void check_number(conuhawe_answer a, shape n, lent l)
{
    CHECK((a.number == 31) == (l.count != n.inputs));
    if (a.number != 31)
        CHECK((a.number == 32) == (l.room != n.streams));
    if (a.number == 31 || a.number == 32)
        return;
    size_t bad = first_bad_input(n, l.inputs);
    CHECK((a.number == 33) == (bad < n.streams) && (a.number != 33 || a.index == bad));
}

/* An instant's call or a trial. */
static void filling(event e, conuhawe_session *s, source *from)
{
    conuhawe_session *before = block(s, sizeof *s);
    shape n = shape_of(before);
    size_t room = e.room < NATURAL ? e.room : n.streams, count = e.count < NATURAL ? e.count : n.inputs;
    int64_t numbers[256], old[256];
    take(from, numbers, count * sizeof *numbers);
    for (size_t i = 0; i < room; i++)
        old[i] = -1 - (int64_t)i;
    lent l = {block(numbers, count * sizeof *numbers), block(old, room * sizeof *old), count, room};

    conuhawe_answer a = run(e.call, s, l);
    CHECK(a.number == 0 || (a.number >= 30 && a.number <= 34));
    CHECK(a.value[0] == 0 && a.value[1] == 0 && a.value[2] == 0);
    check_shape(a, n.streams, 0, 0);
    CHECK((a.number == 30) == !holds_node(before, n));
    if (a.number != 30)
        check_number(a, n, l);
    if (a.number == 0)
        check_accepted(e.call, before, s, n, l.values);
    else
        CHECK(memcmp(before, s, sizeof *s) == 0 && memcmp(old, l.values, room * sizeof *old) == 0);
    check_other_ways(a, before, s, l);
    CHECK(memcmp(numbers, l.inputs, count * sizeof *numbers) == 0);
    free(before);
    free(l.inputs);
    free(l.values);
}

static void commit(conuhawe_session *s)
{
    conuhawe_session *wanted = block(s, sizeof *s);
    size_t number = !holds_node(s, shape_of(s)) ? 30 : s->held == 0 ? 35 : 0;
    if (number == 0) {
        memcpy(wanted->last, wanted->trial, sizeof wanted->last);
        memset(wanted->trial, 0, sizeof wanted->trial);
        memset(wanted->spare, 0, sizeof wanted->spare);
        wanted->started = 1;
        wanted->held = 0;
    }
    conuhawe_answer a = conuhawe_commit(s);
    CHECK(a.number == number);
    CHECK(a.value[0] == 0 && a.value[1] == 0 && a.value[2] == 0);
    check_shape(a, 0, 0, 0);
    CHECK(memcmp(wanted, s, sizeof *s) == 0);
    free(wanted);
}

/* A beginning, on a file in a block of just its size. */
static int begin(conuhawe_session *s, const uint8_t *bytes, size_t length)
{
    uint8_t *file = block(bytes, length);
    conuhawe_session *wanted = block(s, sizeof *s);

    conuhawe_answer a = conuhawe_begin(s, file, length);
    check_node_answer(a, file, length);
    CHECK(same_answer(a, conuhawe_read(file, length)));
    CHECK(memcmp(file, bytes, length) == 0);
    if (a.number == 0) {
        memset(wanted, 0, sizeof *wanted);
        wanted->length = 16 + 16 * a.value[0];
        memcpy(wanted->file, file + length - wanted->length, wanted->length);
    }
    CHECK(memcmp(wanted, s, sizeof *s) == 0);
    free(file);
    free(wanted);
    return a.number == 0;
}

/* The events in a row; of a session that was begun none is refused with 30. */
static void pass(conuhawe_session *s, int begun, const event *events, source file, source from)
{
    for (int i = 0; i < EVENTS; i++) {
        uint8_t call = events[i].call % 4;
        CHECK(!begun || holds_node(s, shape_of(s)));
        if (call == BEGIN)
            begun |= begin(s, file.bytes, file.left);
        else if (call == COMMIT)
            commit(s);
        else
            filling((event){call, events[i].room, events[i].count}, s, &from);
    }
}

int LLVMFuzzerTestOneInput(const uint8_t *data, size_t size)
{
    source from = {data, size};
    event events[EVENTS];
    conuhawe_session any;
    uint8_t head[2];
    take(&from, events, sizeof events);
    take(&from, &any, sizeof any);
    take(&from, head, sizeof head);
    source file = {from.bytes, u16_at(head) < from.left ? u16_at(head) : from.left};
    from.bytes += file.left;
    from.left -= file.left;

    conuhawe_session *raw = block(&any, sizeof any), *s = block(&any, sizeof any);
    pass(raw, 0, events, file, from);
    if (begin(s, file.bytes, file.left))
        pass(s, 1, events, file, from);
    free(raw);
    free(s);
    return 0;
}
