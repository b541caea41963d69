/* Conuhawe: node files, sessions and induction certificates for Lustre booking nodes.
 *
 * Every function here is proved to meet its contract (crates/capi/src), which states the whole outcome for any arguments that this
 * header allows. Link with target/staticlib/libcapi.a, made by `tools/build capi`, on x86-64 Linux.
 *
 * What the caller owes, of every call:
 * - A pointer is not null, also where the length beside it is 0, and is aligned as its type asks.
 * - The bytes or numbers that it points to, as many as the length says, are initialised and stay as they are during the call.
 * - What a call may write (the record, the slice of values) overlaps nothing else that is given to the same call.
 *
 * What a call does with it: it reads and writes nothing but what it is given and its own stack, calls nothing of the C library but
 * memcpy and memset, and always returns. The caller owns all memory; no call keeps a pointer. Calls that are given different memory
 * may run at the same time in different threads, and any number of calls may read the same files and inputs at once. One record is
 * lent to one call at a time.
 *
 * What a call needs of the stack is measured, on x86-64, and not proved: conuhawe_look_up, which follows chains of equations down,
 * about 150 KB at the deepest, and every other call less than 16 KB.
 */
#ifndef CONUHAWE_H
#define CONUHAWE_H

#include <stddef.h>
#include <stdint.h>

#ifdef __cplusplus
extern "C" {
#endif

/* Where a refusal is met: an answer's place. An answer that is not a refusal has place CONUHAWE_NO_PLACE. */
enum {
    CONUHAWE_NO_PLACE = 0,
    CONUHAWE_FILE = 1,       /* the file; also input count, slice length, a record that holds no node or no trial, progress past the
                              * last line, a history too long or without the wanted stream and instant, a table of ranges */
    CONUHAWE_RECORD = 2,     /* record `index` of the node file, or the stream of that number */
    CONUHAWE_CONSTRAINT = 3, /* constraint `index` of the certificate */
    CONUHAWE_LINE = 4,       /* line `index`, counted through base and then on through step */
    CONUHAWE_BASE = 5,       /* the base part */
    CONUHAWE_STEP = 6        /* the step part */
};

/* An answer's number: CONUHAWE_ACCEPTED, of a turn that leaves lines CONUHAWE_UNFINISHED, or the first rule that is broken. */
enum {
    CONUHAWE_ACCEPTED = 0,
    CONUHAWE_UNFINISHED = 256, /* no refusal, and nothing is accepted yet */

    /* node file; places: file for 1 to 4, record for 5 to 8 and 23 */
    CONUHAWE_NODE_LENGTH = 1,
    CONUHAWE_NODE_FIXED_BYTES = 2,
    CONUHAWE_NODE_COUNTS = 3,
    CONUHAWE_NODE_DISTANCE = 4,
    CONUHAWE_RECORD_SHAPE = 5,
    CONUHAWE_RECORD_OPERANDS = 6, /* an operand not below the stream count; it need not be lower than its record */
    CONUHAWE_NO_ORDER = 23,       /* after 6 and before 7: operands needed now lead back to their record */
    CONUHAWE_RECORD_TYPES = 7,
    CONUHAWE_PROPERTY_TYPE = 8,

    /* certificate; places: file for 11 to 14, constraint for 15, line for 16 to 20 and 22, base or step for 21 */
    CONUHAWE_CERTIFICATE_LENGTH = 11,
    CONUHAWE_CERTIFICATE_FIXED_BYTES = 12, /* also any version but 2, version 1 too */
    CONUHAWE_CERTIFICATE_COUNTS = 13, /* the depth, 1 to 8, or the count of constraints */
    CONUHAWE_CERTIFICATE_DISTANCE = 14,
    CONUHAWE_CONSTRAINT_SHAPE = 15,
    CONUHAWE_LINE_SHAPE = 16,
    CONUHAWE_EQUATION_LINE = 17, /* each constraint may be written times one whole number of at least 1 */
    CONUHAWE_PROPERTY_LINE = 18, /* the base's says that the property fails at one of the instants 0 to depth */
    CONUHAWE_JOIN_LINE = 19,
    CONUHAWE_ARITHMETIC_LINE = 20,
    CONUHAWE_NO_EMPTY_LINE = 21,
    CONUHAWE_CUT_LINE = 22,

    /* turn; place: file */
    CONUHAWE_PROGRESS = 55, /* the record is past the last line; after 15 and before 16 */

    /* instant's call and trial: 30 to 34; commit: 30 and 35; places: file for 30 to 32 and 35, record for 33 and 34 */
    CONUHAWE_NO_NODE = 30, /* no node; or a bool of the last committed instant, past instant 0, or of a held trial is not 0 or 1 */
    CONUHAWE_INPUT_COUNT = 31,
    CONUHAWE_SLICE_LENGTH = 32,
    CONUHAWE_BOOL_INPUT = 33,
    CONUHAWE_OUTSIDE_RANGE = 34, /* at the first such stream in the worked-out order */
    CONUHAWE_NO_TRIAL = 35,      /* no trial is held; after 30 */

    /* look-up: 31, 33, 65 and then 34, whose record is the wanted stream; place: file for 65 */
    CONUHAWE_NOT_IN_HISTORY = 65, /* the history has over 16 instants, or no such stream or instant */

    /* table of ranges; places: file for 71, record for 72 */
    CONUHAWE_RANGES_TABLE = 71,    /* table length, ends reversed or too large, a bool's ends not 0 */
    CONUHAWE_RANGE_NOT_INSIDE = 72 /* at the lowest record whose operator's results do not lie inside its range */
};

/* An answer. Of a refusal all values are 0; of an accepted answer place and index are 0, and of an unfinished one the values too. */
typedef struct conuhawe_answer {
    size_t number;   /* 0 where accepted, 256 where unfinished, else the rule's number */
    size_t place;    /* CONUHAWE_FILE .. CONUHAWE_STEP, 0 where accepted or unfinished */
    size_t index;    /* which record, constraint or line; of other places 0 */
    size_t value[3]; /* node: streams, property, 0; certificate, also by turns: depth, base lines, step lines; every other call: 0, 0, 0 */
} conuhawe_answer;

/* A progress record: how far a certificate is checked, as the number of the next line, counted through base and then on through step.
 * It is passed and returned by value: no call changes one, and the caller keeps the one that a turn gives.
 *
 * It may be stored and lent again, after a restart too. Any number is taken: a forged record is safe, since no call reads or writes
 * out of place for it. But lines that it skips are never checked, so that an acceptance proves nothing then. */
typedef struct conuhawe_progress {
    size_t line;
} conuhawe_progress;

/* What a turn gives. Refused: `progress` is the record that was given and `checked` is 0. Else progress.line is the given one's plus
 * `checked`. */
typedef struct conuhawe_turned {
    conuhawe_answer answer;
    conuhawe_progress progress; /* for the next turn */
    size_t checked;             /* how many lines this turn has moved past */
} conuhawe_turned;

/* What a look-up gives. */
typedef struct conuhawe_looked_up {
    conuhawe_answer answer;
    int64_t value; /* of the wanted stream at the wanted instant; 0 where refused */
} conuhawe_looked_up;

/* A session record: it is the caller's, and a call changes it only where it is accepted. A record of any bytes is taken (one that
 * holds no node is refused with 30 by every call but conuhawe_begin), so a program may copy it, store it and lend it again; a zeroed
 * one is a good start. The fields are for the library. There is no padding.
 *
 * Records that were stored by a library without conuhawe_trial do not load: the record has grown from 1,568 to 2,080 bytes, and what
 * follows `last` stands elsewhere. */
typedef struct conuhawe_session {
    size_t length;      /* bytes of the node file that are used */
    int64_t last[64];   /* the values of the last committed instant */
    int64_t trial[64];  /* the values of the held trial; not read where none is held, and 0 then after an accepted call */
    uint8_t file[1040]; /* the node file without its note */
    uint8_t started;    /* 0 before instant 0; any other byte counts as past it */
    uint8_t held;       /* 0 where no trial is held; any other byte counts as one held */
    uint8_t spare[6];   /* not read; 0 after an accepted call */
} conuhawe_session;

/* Checks a node file by rules 1 to 8 and 23. Accepted: value[0] is the stream count and value[1] the property stream.
 *
 * Records may stand in any order. The worked-out order has each time the lowest record whose operands needed now are all placed; all
 * operands are needed now, except b of operator 13. The index of 23 is the lowest record never placed. */
conuhawe_answer conuhawe_read(const uint8_t *node, size_t node_length);

/* Checks a certificate, of version 2, for a node file: rules 1 to 8 and 23 for the node, then 11 to 22. Accepted: value[0] is the
 * depth, value[1] and value[2] are the trailer's counts of base lines and step lines, and the node's property holds at every instant on
 * all inputs.
 *
 * Of depth k, the base covers instants 0 to k, and the step is about any k + 1 instants in a row that do not begin at instant 0: at its
 * first offset operator 12 is b, and operator 13 has no clause. A certificate of version 1 covered one instant less; it is refused
 * with 12. */
conuhawe_answer conuhawe_check(const uint8_t *node, size_t node_length, const uint8_t *certificate, size_t certificate_length);

/* The record that the first turn takes: line 0. */
conuhawe_progress conuhawe_turns_begin(void);

/* Checks the next lines of a certificate, for a caller that has other work to return to: as many as `quota` says, or all that are left
 * where these are fewer. Any quota is taken; 0 checks no line.
 *
 * Each turn begins with the checks before lines, as conuhawe_check has them: rules 1 to 8 and 23 for the node, then 11 to 15; then 55,
 * where progress.line is over the count of all lines. Then come the lines from progress.line on, one at a time, by rules 16 to 20
 * and 22, all in this turn's files. A join reads the lower lines that it cites there too, whatever they hold. Where no line is left,
 * 21 is for all lines of both parts, not only for this turn's. Nothing else of lower lines is looked at.
 *
 * Unfinished, by CONUHAWE_UNFINISHED: these lines pass and lines are left. `checked` is the quota, and the record is moved on by it.
 * Accepted: these lines pass, none is left, and 21 passes. answer.value is as conuhawe_check has it, and the record is at the count of
 * all lines; a further turn on these files is accepted again, with 0 checked. Refused: the first rule that is broken. The record is as
 * it was and 0 are checked, even where lines before the one at fault pass, so that a smaller quota may be unfinished after it.
 *
 * Let each turn be given the same two files, wherever they stand in memory, the first turn the record of conuhawe_turns_begin, and each
 * other one the record that the turn before gave, unchanged. Then every answer that is not unfinished is that of conuhawe_check, and
 * where it is accepted, `checked` of all turns so far adds up to all lines of both parts. Only such an acceptance, or that of
 * conuhawe_check, says that the property holds at every instant. No call can see whether files or record were changed between turns:
 * that they were not is for the caller to keep.
 *
 * A turn costs its lines and the checks before lines. These are done again in each turn and grow with the streams and the constraints,
 * not with the lines; the turn that reaches the end also looks for a line without literals in each part, from the part's last line
 * back. So many small turns cost more than few large ones. */
conuhawe_turned conuhawe_turn(const uint8_t *node, size_t node_length, const uint8_t *certificate, size_t certificate_length,
                              conuhawe_progress progress, size_t quota);

/* Begins a session on a node file, checked as by conuhawe_read and answered the same. Accepted: the record is set to the node, before
 * instant 0, and holds no trial. Refused: every byte of the record, so a held trial too, is as it was.
 *
 * From then on the record is moved by the session's calls, conuhawe_trial, conuhawe_commit and conuhawe_instant, in any mix and with
 * refused ones between them. An instant is committed by an accepted conuhawe_commit, with the inputs of the trial that was held, or by
 * an accepted conuhawe_instant, with its own. The values along the committed instants are those of the node's equations on the
 * committed inputs, and a trial's are those on the committed inputs and its own. Where a certificate for the node is accepted, by
 * conuhawe_check or by turns as conuhawe_turn asks for them, the property's value is 1 in all of them. */
conuhawe_answer conuhawe_begin(conuhawe_session *session, const uint8_t *node, size_t node_length);

/* Runs the next instant: a trial and its commit. `inputs` has one number for each input, in record order (bool: 0 or 1); `values` has
 * room for one number a stream. Accepted: values[i] is the value of stream i, the record is moved on, and it holds no trial; an earlier
 * one is dropped. Refused: every byte of the record, so a held trial too, and every value, is as it was. */
conuhawe_answer conuhawe_instant(conuhawe_session *session, const int64_t *inputs, size_t input_count, int64_t *values,
                                 size_t value_count);

/* Shows the next instant without advancing: answer and values are those that conuhawe_instant would give. Accepted: values[i] is the
 * value of stream i, and the record keeps the values as its held trial, in place of an earlier one; of the rest only `spare` is
 * written. They are worked out from the last committed instant, never from an earlier trial. Refused: every byte of the record, so an
 * earlier trial too, and every value, is as it was. */
conuhawe_answer conuhawe_trial(conuhawe_session *session, const int64_t *inputs, size_t input_count, int64_t *values,
                               size_t value_count);

/* Advances to the held trial: 30, or else 35 where there is none, and no other refusal. Accepted: the trial's values are now those of
 * the last committed instant, and no trial is held. So trials and the commit of the last one leave, byte for byte, the record that
 * conuhawe_instant leaves on that one's inputs. Refused: every byte of the record is as it was. */
conuhawe_answer conuhawe_commit(conuhawe_session *session);

/* Looks up the value of one stream at one instant of a history, without a session: nothing is stepped and nothing is written. A history
 * is a count of instants and all their inputs in turn: with m inputs in the node, instant j has numbers m * j to m * j + m - 1, in
 * record order as conuhawe_instant takes them. Streams and instants count from 0; `instants`, `stream` and `instant` may be any numbers.
 *
 * Refused by the first of these that is broken:
 * - 1 to 8 and 23, as by conuhawe_read.
 * - 31: input_count is not instants times m. The product is that of whole numbers, it does not wrap around. Where m is 0, any count of
 *   instants passes with no inputs.
 * - 33: a bool input is not 0 or 1. All instants are looked at, however many and also those after the wanted one; the index is the
 *   lowest such record of the earliest such instant.
 * - 65: `instants` is over 16, `stream` is not below the stream count or `instant` is not below `instants`. So a history without
 *   instants is refused.
 * - 34: a value that is visited is outside -2^63 to 2^63 - 1. The index is `stream`, whichever stream it was that left the range.
 *
 * Visited is the wanted stream at the wanted instant; and from each visited stream, at its instant, of operator 11 c and, where that is
 * true, a, else b; of operator 12 a at instant 0 and b later; of operator 13 a at instant 0 and later b, one instant before; of every
 * other operator all operands that it has, also where one of them settles the value: both of an "and" whose a is false, and a of K * a
 * where K is 0. Nothing else plays a part: no untaken branch and no input of a later instant. Each stream at each instant is worked
 * out at most once, so that there are at most 16 * 64 evaluations.
 *
 * Accepted: `value` is what the node's equations give over unbounded whole numbers. Where 31, 33 and 65 pass, and a session on the file
 * is given the same inputs instant by instant and answers instants 0 to `instant`, the look-up is accepted, and `value` is the one that
 * the session shows. Where the session says 34 at one of these, the look-up may give a value still: where nothing that it visits is
 * outside. */
conuhawe_looked_up conuhawe_look_up(const uint8_t *node, size_t node_length, size_t instants, const int64_t *inputs,
                                    size_t input_count, size_t stream, size_t instant);

/* Checks a table of ranges for a node file: rules 1 to 8 and 23 for the node, then 71 and 72. `table` has two numbers a stream, the
 * least and the greatest of stream 0, then of stream 1, and on.
 *
 * 71: there are not two numbers a stream, a bool's are not both 0, or an int's are reversed or outside -4000000000 to 4000000000.
 * 72: an int stream that is no input has results outside its range. Its operator's least and greatest are meant, each operand by
 * itself anywhere in its range; for operators 11, 12 and 13 the ranges of both a and b lie inside. The index is the lowest such record.
 *
 * Accepted: the node is listed. In a session on it whose int inputs, those of the committed instants and the call's own, have all been
 * inside their ranges, no instant and no trial is refused with 34 and the value of each int stream is in its range. Inputs of a trial
 * that is not committed do not count. */
conuhawe_answer conuhawe_ranges(const uint8_t *node, size_t node_length, const int64_t *table, size_t numbers);

/* How many leading bytes of a node file are its note; 0 where one of rules 1 to 8 and 23 refuses the file. Never more than its length. */
size_t conuhawe_node_note(const uint8_t *node, size_t node_length);

/* How many leading bytes of a certificate are its note; 0 where rules 11 to 14 refuse the file, so for every version but 2. Never more
 * than its length. */
size_t conuhawe_certificate_note(const uint8_t *certificate, size_t certificate_length);

#ifdef __cplusplus
}
#endif

#endif
