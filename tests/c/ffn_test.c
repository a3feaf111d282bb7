/* The papers' examples and the limits of each function, through the C library. Ends at the first fact that does not hold, with its line. */
#include <string.h>

#include "facts.h"
#include "ffn.h"

/* The layout that the library was compiled with. */
_Static_assert(sizeof(struct ffn_answer) == 24, "answer");
_Static_assert(offsetof(struct ffn_answer, number) == 4, "number");
_Static_assert(offsetof(struct ffn_answer, count) == 8, "count");
_Static_assert(offsetof(struct ffn_answer, value) == 16, "value");
_Static_assert(sizeof(struct ffn_request_read) == 56, "request read");
_Static_assert(offsetof(struct ffn_request_read, operation) == 8, "operation");
_Static_assert(offsetof(struct ffn_request_read, crew) == 12, "crew");
_Static_assert(offsetof(struct ffn_request_read, functional_number) == 16, "functional number");
_Static_assert(offsetof(struct ffn_request_read, msisdn) == 24, "msisdn");
_Static_assert(offsetof(struct ffn_request_read, start) == 32, "start");
_Static_assert(offsetof(struct ffn_request_read, length) == 40, "length");
_Static_assert(offsetof(struct ffn_request_read, codes) == 48, "codes");
_Static_assert(sizeof(struct ffn_frame_read) == 40, "frame read");
_Static_assert(offsetof(struct ffn_frame_read, first) == 8, "first");
_Static_assert(offsetof(struct ffn_frame_read, invoke) == 12, "invoke");
_Static_assert(offsetof(struct ffn_frame_read, scheme) == 16, "scheme");
_Static_assert(offsetof(struct ffn_frame_read, start) == 24, "start");
_Static_assert(offsetof(struct ffn_frame_read, length) == 32, "length");
_Static_assert(sizeof(struct ffn_figures) == 32, "figures");
_Static_assert(offsetof(struct ffn_figures, number) == 4, "number");
_Static_assert(offsetof(struct ffn_figures, held) == 8, "held");
_Static_assert(offsetof(struct ffn_figures, waiting) == 16, "waiting");
_Static_assert(offsetof(struct ffn_figures, in_flight) == 24, "in flight");

/* Document 01's numbers: A has flags 1, B flags 3, C flags 0; F is free. */
static const uint64_t A = 14915100001, B = 14915100002, C = 14915100003, F = 10492123401;
static const uint64_t LIST[6] = {14915100001, 1, 14915100002, 3, 14915100003, 0};

enum { ROOM = 200, MOST_CHARS = 160 };

static uint8_t reply[ROOM];
static uint64_t table[ROW], figures[3];

static int is(struct ffn_answer a, uint32_t class_, uint32_t number, size_t count, uint64_t value)
{
    return a.class_ == class_ && a.number == number && a.count == count && a.value == value;
}

static int figures_are(uint64_t held, uint64_t waiting, uint64_t in_flight)
{
    return figures[0] == held && figures[1] == waiting && figures[2] == in_flight;
}

/* The figures are those of the table. */
static int counted(void)
{
    struct ffn_figures n = ffn_recount(table, ROW);
    return n.class_ == FFN_COUNTED && n.number == 0 && figures_are(n.held, n.waiting, n.in_flight);
}

/* The record, and its figures. */
static int record_is(uint64_t number, uint64_t holder, uint64_t phase, uint64_t addressee, uint64_t supervisor, uint64_t failure)
{
    const uint64_t record[ROW] = {number, holder, phase, addressee, supervisor, failure, 0};
    return memcmp(table, record, sizeof record) == 0 && counted();
}

static void set_figures(uint64_t held, uint64_t waiting, uint64_t in_flight)
{
    figures[0] = held;
    figures[1] = waiting;
    figures[2] = in_flight;
}

static void set_record(uint64_t holder, uint64_t phase, uint64_t addressee, uint64_t supervisor, uint64_t failure)
{
    const uint64_t record[ROW] = {F, holder, phase, addressee, supervisor, failure, 0};
    memcpy(table, record, sizeof record);
    set_figures(holder != 0, phase % 2 == 1, phase != 0 && phase % 2 == 0);
}

static struct ffn_answer pack(const char *text, uint8_t *out, size_t out_length)
{
    return ffn_pack((const uint8_t *)text, strlen(text), out, out_length);
}

/* The buffer begins with the packed text, and the rest of it stayed. */
static int holds(const uint8_t *buffer, size_t count, const char *text)
{
    uint8_t chars[ROOM];
    struct ffn_answer read = ffn_unpack(buffer, count, chars, sizeof chars);
    return read.class_ == FFN_WRITTEN && read.count == strlen(text) && memcmp(chars, text, read.count) == 0
        && untouched(buffer, count, ROOM);
}

/* A request with a text that is packed first. */
static struct ffn_answer ask(uint64_t requester, const char *text)
{
    uint8_t string[ROOM];
    struct ffn_answer packed = pack(text, string, sizeof string);
    fill(reply, sizeof reply);
    return ffn_request(table, ROW, figures, 3, LIST, 6, reply, sizeof reply, requester, 0x0F, string, packed.count);
}

static int outcome(struct ffn_answer a, uint32_t number, const char *text)
{
    return is(a, FFN_OUTCOME, number, 2, 0) && holds(reply, a.count, text);
}

static void packing(void)
{
    uint8_t out[ROOM];
    fill(out, sizeof out);
    HOLDS(is(pack("*#", out, sizeof out), FFN_WRITTEN, 0, 2, 0)); /* P1 */
    HOLDS(begins_with(out, sizeof out, "\xAA\x11", 2));
    HOLDS(is(pack("1234567", out, sizeof out), FFN_WRITTEN, 0, 7, 0)); /* P2 */
    HOLDS(begins_with(out, sizeof out, "\x31\xD9\x8C\x56\xB3\xDD\x1A", 7));
    HOLDS(is(pack("12345678", out, sizeof out), FFN_WRITTEN, 0, 7, 0)); /* P3 */
    HOLDS(memcmp(out, "\x31\xD9\x8C\x56\xB3\xDD\x70", 7) == 0);

    fill(out, sizeof out);
    HOLDS(is(ffn_unpack((const uint8_t *)"\x31\xD9\x8C\x56\xB3\xDD\x00", 7, out, 8), FFN_WRITTEN, 0, 8, 0)); /* P4 */
    HOLDS(begins_with(out, sizeof out, "1234567\0", 8));
    fill(out, sizeof out);
    HOLDS(is(ffn_unpack((const uint8_t *)"\x31\xD9\x8C\x56\xB3\xDD\x1A", 7, out, 8), FFN_WRITTEN, 0, 7, 0));
    HOLDS(begins_with(out, sizeof out, "1234567", 7)); /* a dropped carriage return is not written */

    fill(out, sizeof out);
    HOLDS(is(pack("12\r", out, 2), FFN_REFUSAL, 1, 0, 0)); /* the room comes first */
    HOLDS(is(pack("12\r", out, 3), FFN_REFUSAL, 9, 0, 0));
    HOLDS(is(ffn_unpack((const uint8_t *)"\x00\xFF", 2, out, 1), FFN_REFUSAL, 1, 0, 0));
    HOLDS(is(ffn_unpack((const uint8_t *)"\x00\xFF", 2, out, 2), FFN_REFUSAL, 9, 0, 0));
    HOLDS(is(ffn_unpack((const uint8_t *)"\x31\xD9\x8C\x56\xB3\xDD\x1A", 7, out, 7), FFN_REFUSAL, 1, 0, 0)); /* room before any drop */
    HOLDS(untouched(out, 0, sizeof out));
    HOLDS(is(ffn_pack(out, 0, out + 1, 0), FFN_WRITTEN, 0, 0, 0));
}

/* n characters, packed bit by bit into an output that was 0. */
static void pack_bits(const uint8_t *chars, size_t n, uint8_t *out)
{
    for (size_t bit = 0; bit < 7 * n; bit++)
        out[bit / 8] |= (uint8_t)((chars[bit / 7] >> bit % 7 & 1) << bit % 8);
    if (n % 8 == 7)
        out[n - n / 8 - 1] |= '\r' << 1;
}

/* n characters are packed as bit by bit, into an output just as long, and read back. */
static int as_by_bits(size_t n)
{
    uint8_t chars[MOST_CHARS], bits[MOST_CHARS] = {0}, out[MOST_CHARS + 1], back[MOST_CHARS + 1];
    const size_t count = (7 * n + 7) / 8, room = 8 * count / 7;
    for (size_t i = 0; i < n; i++)
        chars[i] = (uint8_t)((37 * i + 11 * n) % 128 == '\r' ? 127 : (37 * i + 11 * n) % 128);
    pack_bits(chars, n, bits);
    fill(out, sizeof out);
    fill(back, sizeof back);
    return is(ffn_pack(chars, n, out, count), FFN_WRITTEN, 0, count, 0) && begins_with(out, sizeof out, bits, count)
        && is(ffn_unpack(out, count, back, room), FFN_WRITTEN, 0, n, 0) && begins_with(back, sizeof back, chars, n);
}

/* A character behind the first group is not taken: refused before anything is stored. */
static int refused_whole(size_t n)
{
    uint8_t chars[MOST_CHARS], out[MOST_CHARS];
    memset(chars, '1', sizeof chars);
    chars[n - 1] = '\r';
    fill(out, sizeof out);
    return is(ffn_pack(chars, n, out, sizeof out), FFN_REFUSAL, 9, 0, 0) && untouched(out, 0, sizeof out);
}

static void groups(void)
{
    for (size_t n = 0; n <= MOST_CHARS; n++)
        HOLDS(as_by_bits(n));
    HOLDS(refused_whole(9) && refused_whole(16) && refused_whole(MOST_CHARS));
}

static void requests(void)
{
    set_record(0, 0, 0, 0, 0);
    HOLDS(outcome(ask(A, "**214*0492123401***#"), 1, "01")); /* P5 */
    HOLDS(record_is(F, A, 0, 0, 0, 0));
    HOLDS(outcome(ask(B, "**214*0492123401***#"), 61, "61")); /* P6 */
    HOLDS(outcome(ask(A, "**214*0492123401***#"), 1, "01") && record_is(F, A, 0, 0, 0, 0));
    HOLDS(outcome(ask(B, "##214*0492123401***#"), 63, "63")); /* P7 */
    HOLDS(outcome(ask(B, "##214*0492123401*88*4915100002*#"), 63, "63")); /* P8 */
    HOLDS(outcome(ask(A, "##214*0492123401*88*4915100001*#"), 22, "22")); /* P9 */
    HOLDS(outcome(ask(C, "*#214*0492123401***#"), 42, "42")); /* P10 */
    HOLDS(outcome(ask(A, "**214*492123401***#"), 41, "41")); /* P11 */
    HOLDS(is(ask(A, "**214*0492123401*88**#"), FFN_ERROR, 36, 0, 0) && untouched(reply, 0, ROOM)); /* P12 */
    HOLDS(record_is(F, A, 0, 0, 0, 0));

    struct ffn_answer held = ask(B, "*#214*0492123401***#");
    HOLDS(is(held, FFN_OUTCOME, 3, 12, A) && holds(reply, held.count, "03 4915100001"));

    HOLDS(outcome(ask(B, "##214*0492123401*88*4915100001*#"), 2, "02")); /* P8 */
    HOLDS(record_is(F, 0, 1, A, B, 0));
    HOLDS(outcome(ask(A, "*#214*0492123401***#"), 62, "62"));
    HOLDS(outcome(ask(A, "**214*0492123401***#"), 1, "01")); /* P15 */
    HOLDS(outcome(ask(B, "##214*0492123401*88*4915100001*#"), 68, "68") && record_is(F, A, 1, A, B, 0));
}

/* M-105: a number that has A's digits. */
static void own_number(void)
{
    set_record(B, 0, 0, 0, 0);
    table[0] = A;
    HOLDS(outcome(ask(A, "##214*4915100001***#"), 2, "02"));
    HOLDS(record_is(A, 0, 0, 0, 0, 0));
    HOLDS(outcome(ask(A, "##214*4915100001***#"), 62, "62"));
    HOLDS(outcome(ask(A, "**214*4915100001***#"), 67, "67"));
    set_record(A, 0, 0, 0, 0);
    HOLDS(outcome(ask(B, "##214*0492123401***#"), 63, "63"));
    HOLDS(record_is(F, A, 0, 0, 0, 0));
}

/* A request that is refused or in error, in the order of the checks; it touches nothing. */
static void request_checks(void)
{
    const uint64_t unsound[ROW] = {4915100001, 0, 0, 0, 0, 0, 0};
    uint64_t broken[ROW];
    uint8_t string[160];
    size_t count = pack("**214*0492123401***#", string, sizeof string).count;
    memcpy(broken, unsound, sizeof broken);
    fill(reply, sizeof reply);
    HOLDS(is(ffn_request(broken, ROW, figures, 2, LIST, 5, reply, 79, 1, 0, string, 0), FFN_REFUSAL, 1, 0, 0));
    HOLDS(is(ffn_request(broken, ROW, figures, 2, LIST, 5, reply, 80, 1, 0, string, 0), FFN_REFUSAL, 8, 0, 0));
    HOLDS(is(ffn_request(broken, ROW, figures, 2, LIST, 6, reply, 80, 1, 0, string, 0), FFN_REFUSAL, 2, 0, 0));
    set_record(0, 0, 0, 0, 0);
    HOLDS(is(ffn_request(table, ROW, figures, 2, LIST, 6, reply, 80, 1, 0, string, 0), FFN_REFUSAL, 10, 0, 0));
    HOLDS(is(ffn_request(table, ROW, figures, 3, LIST, 6, reply, 80, 1, 0, string, 0), FFN_ERROR, 35, 0, 0));
    HOLDS(is(ffn_request(table, ROW, figures, 3, LIST, 6, reply, 80, A, 0, string, 0), FFN_ERROR, 71, 0, 0));
    HOLDS(is(ffn_request(table, ROW, figures, 3, LIST, 6, reply, 80, A, 0x0F, string, 0), FFN_ERROR, 35, 0, 0));
    HOLDS(is(ffn_request(table, ROW, figures, 3, LIST, 6, reply, 80, A, 0x0F, string, count - 1), FFN_ERROR, 36, 0, 0));
    HOLDS(untouched(reply, 0, ROOM) && record_is(F, 0, 0, 0, 0, 0) && memcmp(broken, unsound, sizeof broken) == 0);
}

static struct ffn_answer send(uint64_t number, uint32_t delay, uint32_t now)
{
    fill(reply, sizeof reply);
    return ffn_sending(table, ROW, figures, 3, reply, sizeof reply, number, delay, now);
}

static struct ffn_answer take(uint64_t number, uint32_t kind, uint32_t now)
{
    return ffn_result(table, ROW, figures, 3, number, kind, now);
}

static void notices(void)
{
    set_record(0, 3, A, B, 4294967290); /* P13 */
    HOLDS(is(ffn_finding(table, ROW, 60, 53), FFN_NONE_DUE, 0, 0, 0));
    HOLDS(is(send(F, 60, 53), FFN_REFUSAL, 5, 0, 0) && untouched(reply, 0, ROOM) && record_is(F, 0, 3, A, B, 4294967290));
    HOLDS(is(ffn_finding(table, ROW, 60, 54), FFN_FOUND, 0, 0, F));
    struct ffn_answer sent = send(F, 60, 54);
    HOLDS(is(sent, FFN_SENT, 0, 28, A) && holds(reply, sent.count, "##214*0492123401*88*4915100002*#"));
    HOLDS(record_is(F, 0, 4, A, B, 0));
    HOLDS(is(send(F, 60, 54), FFN_REFUSAL, 4, 0, 0));
    HOLDS(is(send(F, 59, 54), FFN_REFUSAL, 6, 0, 0));
    HOLDS(is(send(F + 1, 59, 54), FFN_REFUSAL, 7, 0, 0));
    HOLDS(is(ffn_sending(table, ROW - 1, figures, 2, reply, 79, F, 60, 54), FFN_REFUSAL, 1, 0, 0));
    HOLDS(is(ffn_sending(table, ROW - 1, figures, 2, reply, 80, F, 60, 54), FFN_REFUSAL, 2, 0, 0));
    HOLDS(is(ffn_sending(table, ROW, figures, 2, reply, 80, F + 1, 59, 54), FFN_REFUSAL, 10, 0, 0));
    HOLDS(is(ffn_result(table, ROW - 1, figures, 2, F + 1, 6, 60), FFN_REFUSAL, 2, 0, 0));
    HOLDS(is(ffn_result(table, ROW, figures, 2, F + 1, 6, 60), FFN_REFUSAL, 10, 0, 0));
    HOLDS(is(take(F + 1, 6, 60), FFN_REFUSAL, 7, 0, 0));
    HOLDS(is(take(F, 6, 60), FFN_REFUSAL, 3, 0, 0));
    HOLDS(is(take(F, 5, 60), FFN_RESULT, FFN_AGAIN, 0, 0) && record_is(F, 0, 5, A, B, 60));
    HOLDS(is(take(F, 0, 60), FFN_REFUSAL, 4, 0, 0));

    set_record(B, 10, A, B, 0); /* P14 */
    HOLDS(is(take(F, 5, 77), FFN_RESULT, FFN_AGAIN, 0, 0) && record_is(F, B, 11, A, B, 77));
    set_record(B, 12, A, B, 0);
    HOLDS(is(take(F, 5, 77), FFN_RESULT, FFN_DROPPED, 0, 0) && record_is(F, B, 0, 0, 0, 0));
    set_record(B, 2, A, B, 0);
    HOLDS(is(take(F, 0, 77), FFN_RESULT, FFN_DELIVERED, 0, 0) && record_is(F, B, 0, 0, 0, 0));
    HOLDS(is(ffn_finding(table, ROW, 601, 0), FFN_REFUSAL, 6, 0, 0));
    HOLDS(is(ffn_finding(table, ROW - 1, 601, 0), FFN_REFUSAL, 2, 0, 0));
}

static void strings(void)
{
    uint8_t out[ROOM], text[ROOM];
    const uint8_t *field = (const uint8_t *)"TRAIN 4711";
    fill(out, sizeof out);
    struct ffn_answer written = ffn_write_request(FFN_ERASE, F, A, field, 10, out, sizeof out);
    HOLDS(is(written, FFN_WRITTEN, 0, 37, 0) && holds(out, written.count, "##214*0492123401*88*4915100001*TRAIN 4711#"));

    fill(text, sizeof text);
    struct ffn_request_read read = ffn_read_request(out, written.count, text, 42);
    HOLDS(read.class_ == FFN_READ && read.number == 0 && read.operation == FFN_ERASE);
    HOLDS(read.functional_number == F && read.msisdn == A && read.start == 31 && read.length == 10);
    HOLDS(read.crew == 0 && read.codes == 0);
    HOLDS(memcmp(text + read.start, field, 10) == 0 && text[41] == '#' && untouched(text, 42, ROOM));
    fill(text, sizeof text);
    read = ffn_read_request(out, written.count, text, 41); /* no room for its 42 characters: the fields alone */
    HOLDS(read.class_ == FFN_READ && read.start == 31 && read.length == 10 && untouched(text, 0, ROOM));
    read = ffn_read_request(out, written.count - 1, text, sizeof text);
    HOLDS(read.class_ == FFN_ERROR && read.number == 36 && read.operation == 0 && read.functional_number == 0);
    HOLDS(read.msisdn == 0 && read.start == 0 && read.length == 0 && untouched(text, 0, ROOM));
    HOLDS(read.crew == 0 && read.codes == 0);

    fill(out, sizeof out);
    HOLDS(is(ffn_write_request(3, F, 0, field, 10, out, 159), FFN_REFUSAL, 1, 0, 0));
    HOLDS(is(ffn_write_request(3, F, 0, field, 10, out, 160), FFN_REFUSAL, 9, 0, 0));
    HOLDS(is(ffn_write_request(FFN_REGISTER, F, A, field, 10, out, 160), FFN_REFUSAL, 9, 0, 0));
    HOLDS(is(ffn_write_request(FFN_ERASE, F, 1, field, 10, out, 160), FFN_REFUSAL, 9, 0, 0));
    HOLDS(is(ffn_write_request(FFN_ERASE, 0, A, field, 10, out, 160), FFN_REFUSAL, 9, 0, 0));
    HOLDS(untouched(out, 0, sizeof out));
}

static int recounts(const uint64_t *rows, size_t words, uint64_t held, uint64_t waiting, uint64_t in_flight)
{
    struct ffn_figures n = ffn_recount(rows, words);
    return n.class_ == FFN_COUNTED && n.number == 0 && n.held == held && n.waiting == waiting && n.in_flight == in_flight;
}

/* Every call with these figures beside F, held by A with a notice that waits, is refused 10 and leaves them. */
static int other_figures(uint64_t held, uint64_t waiting, uint64_t in_flight)
{
    set_record(A, 1, A, B, 0);
    set_figures(held, waiting, in_flight);
    int refused = is(ask(A, "**214*0492123401***#"), FFN_REFUSAL, 10, 0, 0) && is(send(F, 60, 54), FFN_REFUSAL, 10, 0, 0)
        && is(take(F, 0, 54), FFN_REFUSAL, 10, 0, 0) && is(ask(1, ""), FFN_REFUSAL, 10, 0, 0);
    int stays = figures_are(held, waiting, in_flight) && untouched(reply, 0, ROOM);
    set_figures(1, 1, 0);
    return refused && stays && record_is(F, A, 1, A, B, 0);
}

static void the_figures(void)
{
    uint64_t rows[13 * ROW]; /* one of each phase, the first three held */
    for (uint64_t i = 0; i < 13; i++) {
        const uint64_t row[ROW] = {F + i, i < 3 ? C : 0, i, i == 0 ? 0 : A, i == 0 ? 0 : B, 0, 0};
        memcpy(rows + ROW * i, row, sizeof row);
    }
    HOLDS(recounts(rows, 0, 0, 0, 0) && recounts(rows, ROW, 1, 0, 0) && recounts(rows, 2 * ROW, 2, 1, 0));
    HOLDS(recounts(rows, 3 * ROW, 3, 1, 1) && recounts(rows, 12 * ROW, 3, 6, 5) && recounts(rows, 13 * ROW, 3, 6, 6));
    struct ffn_figures unsound = ffn_recount(rows, 13 * ROW - 1);
    HOLDS(unsound.class_ == FFN_REFUSAL && unsound.number == 2);
    HOLDS(unsound.held == 0 && unsound.waiting == 0 && unsound.in_flight == 0);

    set_record(0, 0, 0, 0, 0);
    HOLDS(outcome(ask(A, "**214*0492123401***#"), 1, "01") && figures_are(1, 0, 0));
    HOLDS(outcome(ask(A, "**214*0492123401***#"), 1, "01") && figures_are(1, 0, 0)); /* again: no change */
    HOLDS(outcome(ask(B, "##214*0492123401*88*4915100001*#"), 2, "02") && figures_are(0, 1, 0));
    HOLDS(is(send(F, 0, 100), FFN_SENT, 0, 28, A) && figures_are(0, 0, 1));
    HOLDS(is(take(F, 5, 101), FFN_RESULT, FFN_AGAIN, 0, 0) && figures_are(0, 1, 0));
    HOLDS(is(send(F, 0, 400), FFN_REFUSAL, 5, 0, 0) && figures_are(0, 1, 0)); /* 0 means 300 seconds */
    HOLDS(is(ffn_finding(table, ROW, 0, 400), FFN_NONE_DUE, 0, 0, 0) && is(ffn_finding(table, ROW, 0, 401), FFN_FOUND, 0, 0, F));
    HOLDS(is(send(F, 0, 401), FFN_SENT, 0, 28, A) && figures_are(0, 0, 1));
    HOLDS(is(take(F, 1, 402), FFN_RESULT, FFN_DROPPED, 0, 0) && figures_are(0, 0, 0));
    HOLDS(outcome(ask(B, "**214*0492123401***#"), 1, "01") && figures_are(1, 0, 0));
    HOLDS(outcome(ask(B, "##214*0492123401*88*4915100002*#"), 2, "02") && figures_are(0, 0, 0)); /* forced by the holder herself */

    HOLDS(other_figures(0, 1, 0) && other_figures(2, 1, 0) && other_figures(1, 0, 0));
    HOLDS(other_figures(1, 2, 0) && other_figures(1, 1, 1) && other_figures(1, 0, 1) && other_figures(4294967297, 1, 0));
    const uint64_t four[4] = {1, 1, 0, 0};
    uint64_t lent[4];
    memcpy(lent, four, sizeof lent);
    for (size_t words = 0; words <= 4; words++) {
        struct ffn_answer a = ffn_result(table, ROW, lent, words, F, 0, 54);
        HOLDS(is(a, FFN_REFUSAL, words == 3 ? 4 : 10, 0, 0) && memcmp(lent, four, sizeof lent) == 0);
    }

    uint64_t ten[10 * ROW]; /* a crew of ten */
    for (uint64_t i = 0; i < 10; i++) {
        const uint64_t row[ROW] = {F + i, 0, 0, 0, 0, 0, 0};
        memcpy(ten + ROW * i, row, sizeof row);
    }
    uint8_t string[ROOM];
    size_t count = pack("**214*0492123401***BULK9 020304050607080910#", string, sizeof string).count;
    set_figures(0, 0, 0);
    HOLDS(ffn_request(ten, 10 * ROW, figures, 3, LIST, 6, reply, 80, A, 0x0F, string, count).number == 11);
    HOLDS(figures_are(10, 0, 0) && recounts(ten, 10 * ROW, 10, 0, 0));
}

/* The request of one additional field, written and read back. */
static struct ffn_request_read read_back(uint32_t operation, uint64_t number, const char *field)
{
    uint8_t out[160], none[1];
    const uint8_t *chars = (const uint8_t *)field;
    struct ffn_answer written = ffn_write_request(operation, number, 0, chars, strlen(field), out, sizeof out);
    HOLDS(written.class_ == FFN_WRITTEN);
    return ffn_read_request(out, written.count, none, 0);
}

static int breaks_the_rules(uint32_t operation, uint64_t number, uint64_t msisdn, const char *field)
{
    uint8_t out[160];
    const uint8_t *chars = (const uint8_t *)field;
    return is(ffn_write_request(operation, number, msisdn, chars, strlen(field), out, sizeof out), FFN_REFUSAL, 9, 0, 0);
}

static int is_error_36(const char *string)
{
    uint8_t octets[63], none[1];
    struct ffn_answer packed = ffn_pack((const uint8_t *)string, strlen(string), octets, sizeof octets);
    HOLDS(packed.class_ == FFN_WRITTEN);
    struct ffn_request_read read = ffn_read_request(octets, packed.count, none, 0);
    return read.class_ == FFN_ERROR && read.number == 36 && read.crew == 0 && read.codes == 0;
}

static void crews(void)
{
    struct ffn_request_read read = read_back(FFN_REGISTER, F, "BULK2 0203");
    HOLDS(read.class_ == FFN_READ && read.crew == 1 && read.codes == 2 && read.start == 19 && read.length == 10);
    read = read_back(FFN_ERASE, F, "BULK9 000203040506070809");
    HOLDS(read.class_ == FFN_READ && read.crew == 1 && read.codes == 9 && read.length == 24);
    read = read_back(FFN_REGISTER, F, "BULK0");
    HOLDS(read.class_ == FFN_READ && read.crew == 1 && read.codes == 0);
    read = read_back(FFN_INTERROGATE, F + 1, " BULK1 02"); /* BULK does not stand at the start */
    HOLDS(read.class_ == FFN_READ && read.crew == 0 && read.codes == 0);

    HOLDS(breaks_the_rules(FFN_REGISTER, F, 0, "BULKY GOODS"));
    HOLDS(breaks_the_rules(FFN_REGISTER, F, 0, "BULK1 01") && breaks_the_rules(FFN_REGISTER, F, 0, "BULK2 0202"));
    HOLDS(breaks_the_rules(FFN_REGISTER, F, 0, "BULK102") && breaks_the_rules(FFN_REGISTER, F, 0, "BULK1 023"));
    HOLDS(breaks_the_rules(FFN_REGISTER, F + 1, 0, "BULK0"));
    HOLDS(breaks_the_rules(FFN_INTERROGATE, F, 0, "BULK0") && breaks_the_rules(FFN_ERASE, F, A, "BULK0"));

    HOLDS(is_error_36("**214*0492123401***BULKY GOODS#") && is_error_36("**214*0492123402***BULK0#"));
    HOLDS(is_error_36("*#214*0492123401***BULK2 0203#") && is_error_36("##214*0492123401*88*4915100001*BULK2 0203#"));
}

/* A request on F, free, and the number behind it, 02, held by `other` or free; only holders may change. */
static struct ffn_answer ask_crew(uint64_t requester, uint64_t other, const char *text, uint64_t holders[2])
{
    const uint64_t before[2 * ROW] = {F, 0, 0, 0, 0, 0, 0, F + 1, other, 3, A, B, 9, 0};
    uint64_t rows[2 * ROW];
    uint8_t string[ROOM];
    struct ffn_answer packed = pack(text, string, sizeof string);
    memcpy(rows, before, sizeof rows);
    fill(reply, sizeof reply);
    set_figures(other != 0, 1, 0);
    struct ffn_answer answer = ffn_request(rows, 2 * ROW, figures, 3, LIST, 6, reply, sizeof reply, requester, 0x0F, string, packed.count);
    holders[0] = rows[1];
    holders[1] = rows[ROW + 1];
    HOLDS(figures_are((uint64_t)(holders[0] != 0) + (holders[1] != 0), 1, 0));
    rows[1] = before[1];
    rows[ROW + 1] = before[ROW + 1];
    HOLDS(memcmp(rows, before, sizeof rows) == 0);
    return answer;
}

static int crew_outcome(struct ffn_answer a, uint32_t number, size_t count, const char *text)
{
    return is(a, FFN_OUTCOME, number, count, 0) && holds(reply, a.count, text);
}

static void crew_requests(void)
{
    uint64_t held[2];
    HOLDS(crew_outcome(ask_crew(A, 0, "**214*0492123401***BULK1 02#", held), 11, 10, "11 2 0102 0"));
    HOLDS(held[0] == A && held[1] == A); /* and the notice of 02 stays */
    HOLDS(memcmp(reply, "\xB1\x18\x48\x06\x82\xC5\x60\x32\x10\x0C", 10) == 0);
    HOLDS(crew_outcome(ask_crew(A, B, "**214*0492123401***BULK2 0302#", held), 11, 13, "11 1 01 2 0302"));
    HOLDS(held[0] == A && held[1] == B);
    HOLDS(crew_outcome(ask_crew(A, 0, "**214*0492123401***BULK0#", held), 11, 8, "11 1 01 0"));
    HOLDS(held[0] == A && held[1] == 0);
    HOLDS(crew_outcome(ask_crew(A, A, "##214*0492123401***BULK1 02#", held), 12, 11, "12 1 02 1 01"));
    HOLDS(held[0] == 0 && held[1] == 0);
    HOLDS(crew_outcome(ask_crew(A, B, "##214*0492123401***BULK9 020304050607080910#", held), 12, 25, "12 0 10 01020304050607080910"));
    HOLDS(held[0] == 0 && held[1] == B);

    HOLDS(outcome(ask_crew(C, 0, "**214*0492123401***BULK1 02#", held), 42, "42") && held[0] == 0 && held[1] == 0);
    HOLDS(is(ask_crew(A, 0, "**214*0492123401***BULK1 01#", held), FFN_ERROR, 36, 0, 0) && untouched(reply, 0, ROOM));
    HOLDS(is(ask_crew(C, 0, "*#214*0492123401***BULK1 02#", held), FFN_ERROR, 36, 0, 0) && untouched(reply, 0, ROOM));
    HOLDS(outcome(ask_crew(A, 0, "**214*0492123401*** BULK1 02#", held), 1, "01") && held[0] == A && held[1] == 0);

    /* A crew is erased as it was registered. */
    set_record(0, 0, 0, 0, 0);
    HOLDS(crew_outcome(ask(A, "**214*0492123401***BULK0#"), 11, 8, "11 1 01 0") && record_is(F, A, 0, 0, 0, 0));
    HOLDS(crew_outcome(ask(B, "##214*0492123401***BULK0#"), 12, 8, "12 0 1 01") && record_is(F, A, 0, 0, 0, 0));
    HOLDS(crew_outcome(ask(A, "##214*0492123401***BULK0#"), 12, 8, "12 1 01 0") && record_is(F, 0, 0, 0, 0, 0));
}

/* A registers F: 18 octets in 23, 31 and 33. And what answers it: 2 octets in 7, 12, 17 and 19; an error; a Reject. */
static const uint8_t REGISTER[40] = {0x0B, 0x7B, 0x1C, 0x21, 0xA1, 0x1F, 0x02, 0x01, 0x01, 0x02, 0x01, 0x3B, 0x30, 0x17, 0x04, 0x01, 0x0F, 0x04, 0x12,
    0x2A, 0x95, 0x2C, 0x46, 0x53, 0xC1, 0x68, 0x39, 0x59, 0x4C, 0x36, 0xA3, 0xC1, 0x62, 0x2A, 0x95, 0x6A, 0x04, 0x7F, 0x01, 0x00};
static const uint8_t RESULT[23] = {0x8B, 0x2A, 0x1C, 0x13, 0xA2, 0x11, 0x02, 0x01, 0x01, 0x30, 0x0C, 0x02, 0x01, 0x3B, 0x30, 0x07, 0x04, 0x01, 0x0F,
    0x04, 0x02, 0xB0, 0x18};
static const uint8_t RETURN_ERROR[12] = {0x8B, 0x2A, 0x1C, 0x08, 0xA3, 0x06, 0x02, 0x01, 0x01, 0x02, 0x01, 0x47};
static const uint8_t REJECT[12] = {0x8B, 0x2A, 0x1C, 0x08, 0xA4, 0x06, 0x02, 0x01, 0x01, 0x81, 0x01, 0x01};

static int frame_is(struct ffn_frame_read read, uint32_t class_, uint32_t number, uint32_t first, uint32_t invoke, uint32_t scheme, size_t start, size_t length)
{
    return read.class_ == class_ && read.number == number && read.first == first && read.invoke == invoke
        && read.scheme == scheme && read.start == start && read.length == length;
}

/* The Register with the octet at a place changed. */
static void change(uint8_t message[40], size_t place, uint8_t octet)
{
    memcpy(message, REGISTER, sizeof REGISTER);
    message[place] = octet;
}

/* A framed request with the octet at a place changed. */
static struct ffn_answer ask_framed(uint64_t requester, size_t place, uint8_t octet)
{
    uint8_t message[40];
    change(message, place, octet);
    fill(reply, sizeof reply);
    return ffn_framed_request(table, ROW, figures, 3, LIST, 6, reply, 120, requester, message, sizeof message);
}

/* The frame is this one, but for its first octet and its invoke number, and the rest of the buffer stayed. */
static int answers(const uint8_t *frame, size_t count, uint8_t first, uint8_t invoke)
{
    return reply[0] == first && reply[8] == invoke && memcmp(reply + 1, frame + 1, 7) == 0
        && memcmp(reply + 9, frame + 9, count - 9) == 0 && untouched(reply, count, ROOM);
}

static void framed_requests(void)
{
    set_record(0, 0, 0, 0, 0);
    HOLDS(is(ask_framed(A, 16, 0x00), FFN_RETURN_ERROR, 71, 12, 0) && answers(RETURN_ERROR, 12, 0x8B, 1));
    HOLDS(is(ask_framed(0, 16, 0x00), FFN_RETURN_ERROR, 35, 12, 0) && reply[11] == 35);
    HOLDS(is(ask_framed(A, 36, 0x00), FFN_RETURN_ERROR, 36, 12, 0) && reply[11] == 36);
    HOLDS(is(ask_framed(A, 11, 0x3C), FFN_REJECT, FFN_UNRECOGNIZED_OPERATION, 12, 0) && answers(REJECT, 12, 0x8B, 1));
    HOLDS(is(ask_framed(A, 12, 0x31), FFN_REJECT, FFN_MISTYPED_PARAMETER, 12, 0) && reply[11] == 2);
    HOLDS(record_is(F, 0, 0, 0, 0, 0));
    HOLDS(is(ask_framed(A, 0, 0x0B), FFN_OUTCOME, 1, 23, 0) && answers(RESULT, 23, 0x8B, 1) && record_is(F, A, 0, 0, 0, 0));
    HOLDS(is(ask_framed(A, 0, 0xFB), FFN_OUTCOME, 1, 23, 0) && answers(RESULT, 23, 0x7B, 1));
    HOLDS(is(ask_framed(A, 8, 0x00), FFN_OUTCOME, 1, 23, 0) && answers(RESULT, 23, 0x8B, 0));
    HOLDS(is(ask_framed(A, 8, 0xFF), FFN_OUTCOME, 1, 23, 0) && answers(RESULT, 23, 0x8B, 0xFF));

    uint8_t message[120], none[1] = {0};
    struct ffn_answer made = ffn_write_register(0, 1, FFN_INTERROGATE, F, 0, none, 0, message, sizeof message);
    fill(reply, sizeof reply);
    struct ffn_answer held = ffn_framed_request(table, ROW, figures, 3, LIST, 6, reply, sizeof reply, B, message, made.count);
    HOLDS(is(held, FFN_OUTCOME, 3, 33, A) && untouched(reply, 33, ROOM));
    uint8_t text[ROOM];
    HOLDS(is(ffn_unpack(reply + 21, 12, text, sizeof text), FFN_WRITTEN, 0, 13, 0) && memcmp(text, "03 4915100001", 13) == 0);
}

/* A framed request that is refused, in the order of the checks; it touches nothing. */
static void framed_checks(void)
{
    uint64_t broken[ROW] = {4915100001, 0, 0, 0, 0, 0, 0};
    uint8_t wrong[40], rejected[40];
    change(wrong, 1, 0x3B);
    change(rejected, 11, 0x3C);
    fill(reply, sizeof reply);
    HOLDS(is(ffn_framed_request(broken, ROW, figures, 2, LIST, 5, reply, 119, 1, wrong, 40), FFN_REFUSAL, 1, 0, 0));
    HOLDS(is(ffn_framed_request(broken, ROW, figures, 2, LIST, 5, reply, 120, 1, wrong, 40), FFN_REFUSAL, 11, 0, 0));
    HOLDS(is(ffn_framed_request(broken, ROW, figures, 2, LIST, 5, reply, 120, 1, rejected, 40), FFN_REFUSAL, 8, 0, 0));
    HOLDS(is(ffn_framed_request(broken, ROW, figures, 2, LIST, 6, reply, 120, 1, rejected, 40), FFN_REFUSAL, 2, 0, 0));
    HOLDS(is(ffn_framed_request(broken, ROW, figures, 2, LIST, 6, reply, 120, 1, REGISTER, 0), FFN_REFUSAL, 11, 0, 0));
    set_record(A, 0, 0, 0, 0);
    HOLDS(is(ffn_framed_request(table, ROW, figures, 2, LIST, 6, reply, 120, 1, rejected, 40), FFN_REFUSAL, 10, 0, 0));
    change(rejected, 12, 0x31);
    HOLDS(is(ffn_framed_request(table, ROW, figures, 2, LIST, 6, reply, 120, 1, rejected, 40), FFN_REFUSAL, 10, 0, 0));
    HOLDS(untouched(reply, 0, ROOM) && broken[0] == 4915100001 && record_is(F, A, 0, 0, 0, 0));
}

static void registers(void)
{
    uint8_t frame[ROOM], message[240] = {0x0B, 0x7B, 0x1C, 0x92, 0xA1, 0x81, 0x8F, 0x02, 0x01, 0x01, 0x02, 0x01, 0x3B, 0x30, 0x81, 0x86,
        0x04, 0x01, 0x00, 0x04, 0x81, 0x80}, none[1] = {0};
    const uint8_t *field = (const uint8_t *)"ABCDEFGHIJKLMNOPQRSTUVWXYZ0123";
    fill(frame, sizeof frame);
    HOLDS(is(ffn_write_register(0, 1, FFN_REGISTER, F, 0, none, 0, frame, 120), FFN_WRITTEN, 0, 40, 0));
    HOLDS(begins_with(frame, ROOM, REGISTER, 40));
    HOLDS(frame_is(ffn_read_register(REGISTER, 40), FFN_READ, 0, 0x0B, 1, 0x0F, 19, 18));
    struct ffn_answer longest = ffn_write_register(15, 255, FFN_ERASE, 1999999999999999, 1000000000000000, field, 30, frame, 120);
    HOLDS(is(longest, FFN_WRITTEN, 0, 85, 0) && untouched(frame, 85, ROOM));
    HOLDS(frame_is(ffn_read_register(frame, 85), FFN_READ, 0, 0xFB, 255, 0x0F, 19, 63));
    fill(frame, sizeof frame);
    HOLDS(is(ffn_write_register(16, 1, 3, F, 0, none, 0, frame, 119), FFN_REFUSAL, 1, 0, 0));
    HOLDS(is(ffn_write_register(16, 1, FFN_REGISTER, F, 0, none, 0, frame, 120), FFN_REFUSAL, 9, 0, 0));
    HOLDS(is(ffn_write_register(0, 1, 3, F, 0, none, 0, frame, 120), FFN_REFUSAL, 9, 0, 0));
    HOLDS(is(ffn_write_register(0, 1, FFN_REGISTER, F, A, none, 0, frame, 120), FFN_REFUSAL, 9, 0, 0));
    HOLDS(untouched(frame, 0, ROOM));

    memset(message + 22, 0x55, 128); /* a string of 128 octets, where all lengths are in the long form */
    memcpy(message + 150, REGISTER + 37, 3);
    HOLDS(frame_is(ffn_read_register(message, 153), FFN_READ, 0, 0x0B, 1, 0, 22, 128));
    HOLDS(frame_is(ffn_read_register(message, 152), FFN_REJECT, 2, 0x0B, 1, 0, 0, 0));
    HOLDS(frame_is(ffn_read_register(message, 154), FFN_REJECT, 2, 0x0B, 1, 0, 0, 0));
    HOLDS(frame_is(ffn_read_register(message, 149), FFN_REFUSAL, 11, 0, 0, 0, 0, 0));
    message[12] = 0x3C;
    HOLDS(frame_is(ffn_read_register(message, 153), FFN_REJECT, 1, 0x0B, 1, 0, 0, 0));
    HOLDS(frame_is(ffn_read_register(message, 0), FFN_REFUSAL, 11, 0, 0, 0, 0, 0));
}

static void releases(void)
{
    uint8_t longest[102] = {0x0B, 0x2A, 0x1C, 0x61, 0xA2, 0x5F, 0x02, 0x01, 0xFF, 0x30, 0x5A, 0x02, 0x01, 0x3B, 0x30, 0x55, 0x04, 0x01, 0x0F, 0x04, 0x50};
    HOLDS(frame_is(ffn_read_release(RESULT, 23), FFN_READ, 0, 0x8B, 1, 0x0F, 21, 2));
    HOLDS(frame_is(ffn_read_release(RETURN_ERROR, 12), FFN_RETURN_ERROR, 71, 0x8B, 1, 0, 0, 0));
    HOLDS(frame_is(ffn_read_release(REJECT, 12), FFN_REJECT, 1, 0x8B, 1, 0, 0, 0));
    HOLDS(frame_is(ffn_read_release(longest, 101), FFN_READ, 0, 0x0B, 255, 0x0F, 21, 80));
    HOLDS(frame_is(ffn_read_release(longest, 102), FFN_REFUSAL, 11, 0, 0, 0, 0, 0));
    HOLDS(frame_is(ffn_read_release(RESULT, 22), FFN_REFUSAL, 11, 0, 0, 0, 0, 0));
    HOLDS(frame_is(ffn_read_release(REGISTER, 40), FFN_REFUSAL, 11, 0, 0, 0, 0, 0));
    longest[18] = 0x00; /* another scheme */
    HOLDS(frame_is(ffn_read_release(longest, 101), FFN_REFUSAL, 11, 0, 0, 0, 0, 0));
}

int main(void)
{
    packing();
    groups();
    requests();
    own_number();
    request_checks();
    notices();
    the_figures();
    strings();
    crews();
    crew_requests();
    framed_requests();
    framed_checks();
    registers();
    releases();
    return all_hold();
}
