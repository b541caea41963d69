/* Fuzz target of look-ups. Input, where what is missing counts as zeros: u8 count of instants, u8 stream and u8 instant, where 0xF0
 * to 0xF7 stand for the greatest numbers and 0xF8 to 0xFF for those from half of all on; u8 count of inputs (128 and over: instants
 * times the node's inputs); u8 which, where odd, makes each bool input its lowest bit; u16 length of a node file and its bytes; the
 * inputs, 8 bytes each. A session is run on the same inputs. */
#include "target.h"

/* The most instants of a history that is answered, and of how many inputs there is room for. */
enum { MOST = 16, ROOM = 0xF0 * 64 };

/* A node file in a block of just its size; where it passes 1 to 8 and 23 its records, and which of them are inputs. */
typedef struct {
    uint8_t *file;
    const uint8_t *records;
    size_t length, streams, each, given[64];
} shape;

/* A history, its inputs in a block of just their size, and what is wanted of it. */
typedef struct {
    int64_t *inputs;
    size_t instants, count, stream, instant;
} question;

static size_t wide(uint8_t byte)
{
    if (byte < 0xF0)
        return byte;
    return byte < 0xF8 ? SIZE_MAX - (0xF7 - byte) : SIZE_MAX / 2 + 1 + (byte - 0xF8);
}

static int is_bool(const shape *n, size_t i)
{
    return n->records[16 * i + 1] == 0;
}

static void find_inputs(shape *n, conuhawe_answer read)
{
    if (read.number != 0)
        return;
    n->streams = read.value[0];
    n->records = n->file + n->length - 16 - 16 * n->streams;
    for (size_t i = 0; i < n->streams; i++)
        if (n->records[16 * i] == 0)
            n->given[n->each++] = i;
}

/* Which rule refuses a look-up before its value is worked out, 31, 33 or 65, and where: a second reading. 0 where none does. */
static size_t refused_by(const shape *n, const question *q, size_t *index)
{
    *index = 0;
    if (n->each == 0 ? q->count != 0 : q->count % n->each != 0 || q->count / n->each != q->instants)
        return CONUHAWE_INPUT_COUNT;
    for (size_t j = 0; j < q->count; j++) {
        size_t i = n->given[j % n->each];
        if (is_bool(n, i) && q->inputs[j] != 0 && q->inputs[j] != 1) {
            *index = i;
            return CONUHAWE_BOOL_INPUT;
        }
    }
    return q->instants > MOST || q->stream >= n->streams || q->instant >= q->instants ? CONUHAWE_NOT_IN_HISTORY : 0;
}

static conuhawe_looked_up look_up(const shape *n, const question *q)
{
    return conuhawe_look_up(n->file, n->length, q->instants, q->inputs, q->count, q->stream, q->instant);
}

/* The same inputs in a session. Where it answers all instants up to the wanted one, it shows the value; where it stops at the wanted
 * stream and instant, the look-up is refused with 34; where it stops elsewhere, the look-up may give a value. */
static void check_session(const shape *n, const question *q, conuhawe_looked_up l)
{
    conuhawe_session *s = calloc(1, sizeof *s);
    int64_t *values = calloc(n->streams, sizeof *values);
    CHECK(s && values && conuhawe_begin(s, n->file, n->length).number == 0);
    conuhawe_answer a = {0};
    size_t t = 0;
    for (; t <= q->instant && a.number == 0; t++)
        a = conuhawe_instant(s, q->inputs + n->each * t, n->each, values, n->streams);
    if (a.number == 0)
        CHECK(l.answer.number == 0 && l.value == values[q->stream]);
    else
        CHECK(a.number == 34 && (t <= q->instant || a.index != q->stream || l.answer.number == 34));
    free(s);
    free(values);
}

/* Whether the look-up of an operand of the wanted stream, some instants before, gives a value; and that. */
static int is_given(const shape *n, const question *q, size_t operand, size_t before, int64_t *value)
{
    question own = *q;
    own.stream = u16_at(n->records + 16 * q->stream + 2 + 2 * operand);
    own.instant = q->instant - before;
    conuhawe_looked_up l = look_up(n, &own);
    *value = l.value;
    return l.answer.number == 0;
}

/* Whether this is so of all that the wanted stream visits at once: the condition and the branch taken, the operand that 12 and 13
 * choose, all operands of others. */
static int are_given(const shape *n, const question *q)
{
    size_t operator = n->records[16 * q->stream], chosen = q->instant != 0;
    int64_t value;
    if (operator == 11)
        return is_given(n, q, 2, 0, &value) && is_given(n, q, value != 1, 0, &value);
    if (operator == 12 || operator == 13)
        return is_given(n, q, chosen, operator == 13 ? chosen : 0, &value);
    for (size_t i = 0; i < needed_now[operator]; i++)
        if (!is_given(n, q, i, 0, &value))
            return 0;
    return 1;
}

/* 34 where one of these is refused, which is with 34 too, and else by operators 6 to 8 alone. */
static void check_visits(const shape *n, const question *q, conuhawe_looked_up l)
{
    size_t operator = n->records[16 * q->stream];
    if (!are_given(n, q))
        CHECK(l.answer.number == 34);
    else
        CHECK(l.answer.number == 0 || (operator >= 6 && operator <= 8));
}

/* What comes after the wanted instant plays no part: in a history that ends there the answer is the same. */
static void check_end(const shape *n, const question *q, conuhawe_looked_up l)
{
    question ends = *q;
    ends.instants = q->instant + 1;
    ends.count = n->each * ends.instants;
    ends.inputs = block(q->inputs, ends.count * sizeof *q->inputs);
    conuhawe_looked_up again = look_up(n, &ends);
    CHECK(same_answer(again.answer, l.answer) && again.value == l.value);
    free(ends.inputs);
}

/* A look-up of a node that passes 1 to 8 and 23. */
static void check_look_up(const shape *n, const question *q, conuhawe_looked_up l)
{
    size_t index, number = refused_by(n, q, &index);
    check_shape(l.answer, n->streams, 0, 0);
    CHECK(l.answer.value[0] == 0 && l.answer.value[1] == 0 && l.answer.value[2] == 0);
    if (number != 0) {
        CHECK(l.answer.number == number && l.answer.index == index);
        return;
    }
    CHECK(l.answer.number == 0 || (l.answer.number == 34 && l.answer.index == q->stream));
    CHECK(!is_bool(n, q->stream) || l.value == 0 || l.value == 1);
    check_session(n, q, l);
    check_visits(n, q, l);
    check_end(n, q, l);
}

/* The inputs, as many as the byte says or as the node has in all instants, if there is room for these. */
static size_t take_inputs(source *from, const shape *n, size_t instants, uint8_t byte, int typed, int64_t *to)
{
    size_t all = instants * n->each, count = byte < NATURAL ? byte : all <= ROOM ? all : 0;
    take(from, to, count * sizeof *to);
    for (size_t j = 0; typed && n->each && j < count; j++)
        if (is_bool(n, n->given[j % n->each]))
            to[j] &= 1;
    return count;
}

int LLVMFuzzerTestOneInput(const uint8_t *data, size_t size)
{
    static int64_t numbers[ROOM];
    source from = {data, size};
    uint8_t head[7];
    take(&from, head, sizeof head);
    size_t length = u16_at(head + 5) < from.left ? u16_at(head + 5) : from.left;
    const uint8_t *bytes = from.bytes;
    from.bytes += length;
    from.left -= length;

    shape n = {.file = block(bytes, length), .length = length};
    conuhawe_answer read = conuhawe_read(n.file, length);
    find_inputs(&n, read);
    question q = {.instants = wide(head[0]), .stream = wide(head[1]), .instant = wide(head[2])};
    q.count = take_inputs(&from, &n, q.instants, head[3], head[4] & 1, numbers);
    q.inputs = block(numbers, q.count * sizeof *numbers);

    conuhawe_looked_up l = look_up(&n, &q);
    CHECK(l.answer.number == 0 || l.value == 0);
    if (read.number != 0)
        CHECK(same_answer(l.answer, read));
    else
        check_look_up(&n, &q, l);

    CHECK(memcmp(n.file, bytes, length) == 0 && memcmp(q.inputs, numbers, q.count * sizeof *numbers) == 0);
    free(n.file);
    free(q.inputs);
    return 0;
}
