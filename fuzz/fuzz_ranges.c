/* Fuzz target of the check of ranges. Input, where what is missing counts as zeros: u8 count of numbers (128 and over: two a stream);
 * u16 length of a node file and its bytes; the numbers, 8 bytes each; then what inputs are drawn from, 8 bytes each. Where the node
 * is listed, instants are run on it with inputs inside their ranges, every other one by trial and commit, after a trial with ints that
 * are drawn from all numbers. */
#include "target.h"

static const int64_t LIMIT = 4000000000;

/* A node that passes 1 to 8 and 23, and a table for it. */
typedef struct {
    const uint8_t *file, *records;
    size_t length, streams;
    const int64_t *table;
    size_t numbers;
} listing;

static int is_bool(const listing *l, size_t i)
{
    return l->records[16 * i + 1] == 0;
}

/* Whether the table may be one of the node's: a second reading of 71. */
static int is_table(const listing *l)
{
    if (l->numbers != 2 * l->streams)
        return 0;
    for (size_t i = 0; i < l->streams; i++) {
        int64_t least = l->table[2 * i], greatest = l->table[2 * i + 1];
        if (is_bool(l, i) ? least != 0 || greatest != 0 : least > greatest || least < -LIMIT || greatest > LIMIT)
            return 0;
    }
    return 1;
}

/* An input inside its range, counted from either end. */
static int64_t drawn(source *from, const listing *l, size_t i)
{
    uint64_t any;
    take(from, &any, sizeof any);
    if (is_bool(l, i))
        return any & 1;
    int64_t least = l->table[2 * i], greatest = l->table[2 * i + 1];
    int64_t off = (int64_t)((any >> 1) % (uint64_t)(greatest - least + 1));
    return any & 1 ? greatest - off : least + off;
}

/* An input of its type, inside its range or not. */
static int64_t any_input(source *from, const listing *l, size_t i)
{
    int64_t any;
    take(from, &any, sizeof any);
    return is_bool(l, i) ? any & 1 : any;
}

/* A trial, an instant's call where `at_once`, with inputs drawn in this way. */
static size_t number_of(const listing *l, conuhawe_session *s, int64_t *values, source *from, int at_once,
                        int64_t (*draw)(source *, const listing *, size_t))
{
    int64_t numbers[64];
    size_t count = 0;
    for (size_t i = 0; i < l->streams; i++)
        if (l->records[16 * i] == 0)
            numbers[count++] = draw(from, l, i);
    int64_t *inputs = block(numbers, count * sizeof *inputs);
    conuhawe_answer a = (at_once ? conuhawe_instant : conuhawe_trial)(s, inputs, count, values, l->streams);
    free(inputs);
    return a.number;
}

/* Instants of a listed node: none is refused, and each int value is in its range. A trial of any ints is 34 at most. */
static void pass(const listing *l, source *from)
{
    conuhawe_session *s = calloc(1, sizeof *s);
    int64_t *values = calloc(l->streams, sizeof *values);
    CHECK(s && values && conuhawe_begin(s, l->file, l->length).number == 0);
    for (int t = 0; t < INSTANTS; t++) {
        int at_once = t % 2 == 0;
        if (!at_once) {
            size_t number = number_of(l, s, values, from, 0, any_input);
            CHECK(number == 0 || number == 34);
        }
        CHECK(number_of(l, s, values, from, at_once, drawn) == 0);
        for (size_t i = 0; i < l->streams; i++)
            CHECK(is_bool(l, i) || (l->table[2 * i] <= values[i] && values[i] <= l->table[2 * i + 1]));
        CHECK(at_once || conuhawe_commit(s).number == 0);
    }
    free(s);
    free(values);
}

static void check_ranges_answer(conuhawe_answer a, const listing *l)
{
    CHECK(a.number == 0 || a.number == 71 || a.number == 72);
    check_shape(a, l->streams, 0, 0);
    CHECK(a.value[0] == 0 && a.value[1] == 0 && a.value[2] == 0);
    CHECK((a.number == 71) == !is_table(l));
    if (a.number == 72)
        CHECK(!is_bool(l, a.index) && l->records[16 * a.index] != 0);
}

int LLVMFuzzerTestOneInput(const uint8_t *data, size_t size)
{
    source from = {data, size};
    uint8_t head[3];
    take(&from, head, sizeof head);
    size_t length = u16_at(head + 1) < from.left ? u16_at(head + 1) : from.left;
    const uint8_t *bytes = from.bytes;
    uint8_t *file = block(bytes, length);
    from.bytes += length;
    from.left -= length;

    conuhawe_answer read = conuhawe_read(file, length);
    size_t streams = read.number == 0 ? read.value[0] : 0;
    int64_t given[128];
    size_t numbers = head[0] < NATURAL ? head[0] : 2 * streams;
    take(&from, given, numbers * sizeof *given);
    int64_t *table = block(given, numbers * sizeof *table);

    conuhawe_answer a = conuhawe_ranges(file, length, table, numbers);
    if (read.number != 0) {
        CHECK(same_answer(a, read));
    } else {
        listing l = {file, file + length - 16 - 16 * streams, length, streams, table, numbers};
        check_ranges_answer(a, &l);
        if (a.number == 0)
            pass(&l, &from);
    }

    CHECK(memcmp(file, bytes, length) == 0 && memcmp(table, given, numbers * sizeof *table) == 0);
    free(file);
    free(table);
    return 0;
}
