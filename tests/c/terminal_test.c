/* Erasures at the node's terminal, and the notice that names no supervisor, through the C library. Ends at the first fact that does not hold, with its line. */
#include <stdio.h>
#include <string.h>

#include "facts.h"
#include "ffn.h"

/* Rows that a table may have here, figures and what a call may be lent behind them, and the room of a reply. */
enum { ROWS = 12, FIGURES = 3, BEHIND = 2, REPLY = 80, ROOM = 200 };

static const uint64_t A = 14915100001, B = 14915100002, C = 14915100003, F = 10492123401;
static const uint64_t LIST[6] = {14915100001, 1, 14915100002, 3, 14915100003, 0};

/* The notice to the holder of F who was forced off at the terminal: 22 characters in 20 octets. */
static const char BLANK[] = "##214*0492123401*88**#";
static const uint8_t BLANK_OCTETS[20] = {
    0xA3, 0x91, 0x2C, 0x46, 0x53, 0xC1, 0x68, 0x39, 0x59, 0x4C, 0x36, 0xA3, 0xC1, 0x62, 0x2A, 0x1C, 0x4E, 0xA5, 0x1A, 0x01};

static const uint64_t MALFORMED[] = {0, 7, 19999, 200000, 4915100001, 492123401, 10000000000000000, UINT64_MAX};
enum { MALFORMED_WORDS = sizeof MALFORMED / sizeof *MALFORMED };

/* All that a call is lent, and what it was before. */
struct lent {
    uint64_t table[ROW * ROWS], figures[FIGURES + BEHIND];
    uint8_t buffer[ROOM];
};
static struct lent now, before;
static size_t rows;

static int is(struct ffn_answer a, uint32_t class_, uint32_t number, size_t count, uint64_t value)
{
    return a.class_ == class_ && a.number == number && a.count == count && a.value == value;
}

/* No rows, and memory that shows whether something wrote there. */
static void clear(void)
{
    fill(&now, sizeof now);
    memset(now.figures, 0, sizeof *now.figures * FIGURES);
    rows = 0;
}

/* One more row; the figures follow. */
static void put(uint64_t number, uint64_t holder, uint64_t phase, uint64_t addressee, uint64_t supervisor, uint64_t closed)
{
    const uint64_t row[ROW] = {number, holder, phase, addressee, supervisor, 0, closed};
    memcpy(now.table + ROW * rows, row, sizeof row);
    rows += 1;
    now.figures[0] += holder != 0;
    now.figures[1] += phase % 2;
    now.figures[2] += phase != 0 && phase % 2 == 0;
}

/* F alone. */
static void set(uint64_t holder, uint64_t phase, uint64_t addressee, uint64_t supervisor)
{
    clear();
    put(F, holder, phase, addressee, supervisor, 0);
}

static void lend(void)
{
    fill(now.buffer, sizeof now.buffer);
    memcpy(&before, &now, sizeof now);
}

/* Every word and octet is as it was lent. */
static int left(void)
{
    return memcmp(&now, &before, sizeof now) == 0;
}

static struct ffn_answer erase_in(size_t table_words, size_t figure_words, size_t reply_length, uint64_t number, uint64_t holder)
{
    lend();
    return ffn_terminal_erasure(now.table, table_words, now.figures, figure_words, now.buffer, reply_length, number, holder);
}

static struct ffn_answer erase(uint64_t number, uint64_t holder)
{
    return erase_in(ROW * rows, FIGURES, REPLY, number, holder);
}

static int refused(struct ffn_answer a, uint32_t number)
{
    return is(a, FFN_REFUSAL, number, 0, 0) && left();
}

/* An outcome, packed in front of the buffer; all else is as it was before. */
static int outcome(struct ffn_answer a, uint32_t number)
{
    uint8_t digits[2], octets[2];
    digits[0] = (uint8_t)('0' + number / 10);
    digits[1] = (uint8_t)('0' + number % 10);
    HOLDS(is(ffn_pack(digits, 2, octets, 2), FFN_WRITTEN, 0, 2, 0));
    memcpy(before.buffer, octets, sizeof octets);
    return is(a, FFN_OUTCOME, number, 2, 0) && left();
}

/* 02 for the number of this row: nobody holds it, and the notice to this holder waits. */
static int erased(struct ffn_answer a, size_t place, uint64_t holder)
{
    uint64_t *row = before.table + ROW * place;
    row[1] = 0;
    row[2] = 1;
    row[3] = holder;
    before.figures[0] -= 1;
    before.figures[1] += 1;
    return outcome(a, 2);
}

/* F's row, and the figures of F alone. */
static int is_row(uint64_t holder, uint64_t phase, uint64_t addressee, uint64_t supervisor, uint64_t failure)
{
    const uint64_t row[ROW] = {F, holder, phase, addressee, supervisor, failure, 0};
    return memcmp(now.table, row, sizeof row) == 0 && now.figures[0] == (holder != 0) && now.figures[1] == phase % 2
        && now.figures[2] == (phase != 0 && phase % 2 == 0);
}

static size_t pack(const char *text, uint8_t *out)
{
    struct ffn_answer packed = ffn_pack((const uint8_t *)text, strlen(text), out, ROOM);
    HOLDS(packed.class_ == FFN_WRITTEN);
    return packed.count;
}

static struct ffn_answer ask(uint64_t requester, const char *text)
{
    uint8_t string[ROOM];
    size_t count = pack(text, string);
    lend();
    return ffn_request(now.table, ROW * rows, now.figures, FIGURES, LIST, 6, now.buffer, REPLY, requester, 0x0F, string, count);
}

static struct ffn_answer send(uint64_t number, uint32_t delay, uint32_t second)
{
    lend();
    return ffn_sending(now.table, ROW * rows, now.figures, FIGURES, now.buffer, REPLY, number, delay, second);
}

static struct ffn_answer take(uint32_t kind, uint32_t second)
{
    lend();
    return ffn_result(now.table, ROW * rows, now.figures, FIGURES, F, kind, second);
}

/* The blank notice of F goes to A. */
static int sent_blank(uint32_t delay, uint32_t second)
{
    return is(send(F, delay, second), FFN_SENT, 0, 20, A) && begins_with(now.buffer, ROOM, BLANK_OCTETS, 20);
}

static void example(void)
{
    set(A, 0, 0, 0);
    HOLDS(outcome(erase(F, B), 63) && outcome(erase(F + 1, A), 41));
    HOLDS(erased(erase(F, A), 0, A) && is_row(0, 1, A, 0, 0));
    HOLDS(outcome(erase(F, A), 62));
    HOLDS(is(ffn_finding(now.table, ROW, 60, 100), FFN_FOUND, 0, 0, F));
    HOLDS(sent_blank(60, 100) && is_row(0, 2, A, 0, 0));
    HOLDS(is(ask(A, "**214*0492123401***#"), FFN_OUTCOME, 1, 2, 0)); /* she registers again */
    HOLDS(outcome(erase(F, A), 68) && is_row(A, 2, A, 0, 0));
    HOLDS(is(take(0, 101), FFN_RESULT, FFN_DELIVERED, 0, 0) && is_row(A, 0, 0, 0, 0));
    HOLDS(erased(erase(F, A), 0, A)); /* and now once more */
}

/* Only the row of the number named changes, wherever it stands, open or closed, whoever holds it. */
static void rows_of_a_table(void)
{
    const uint64_t holders[] = {14915100001, 14915100003, 10492123401, 100000, 1999999999999999};
    for (size_t place = 0; place < ROWS; place++)
        for (uint64_t closed = 0; closed <= 1; closed++)
            for (size_t h = 0; h < sizeof holders / sizeof *holders; h++) {
                clear();
                for (size_t i = 0; i < ROWS; i++)
                    if (i == place)
                        put(F + i, holders[h], 0, 0, 0, closed);
                    else
                        put(F + i, i % 3 == 0 ? 0 : B, i, i == 0 ? 0 : A, i % 2 == 0 ? 0 : C, i % 5 == 0);
                HOLDS(erased(erase(F + place, holders[h]), place, holders[h]));
                HOLDS(now.table[ROW * place + 4] == 0 && now.table[ROW * place + 6] == closed);
            }
}

/* Each refusal with all those behind it, then without it. */
static void refusals(void)
{
    set(A, 0, 0, 0);
    for (size_t length = 0; length < REPLY; length++)
        HOLDS(refused(erase_in(ROW - 1, 2, length, 0, 0), 1) && refused(erase_in(ROW, FIGURES, length, F, A), 1));
    HOLDS(refused(erase_in(ROW - 1, 2, REPLY, 0, 0), 2) && refused(erase_in(ROW - 1, FIGURES, REPLY, F, A), 2));
    for (size_t words = 0; words <= FIGURES + BEHIND; words++)
        HOLDS(words == FIGURES || (refused(erase_in(ROW, words, REPLY, 0, 0), 10) && refused(erase_in(ROW, words, REPLY, F, A), 10)));
    for (size_t i = 0; i < FIGURES; i++) {
        now.figures[i] ^= (uint64_t)1 << 32;
        HOLDS(refused(erase(0, 0), 10) && refused(erase(F, A), 10));
        now.figures[i] ^= (uint64_t)1 << 32;
    }
    for (size_t i = 0; i < MALFORMED_WORDS; i++) {
        HOLDS(refused(erase(MALFORMED[i], A), 7) && refused(erase(F, MALFORMED[i]), 7));
        HOLDS(refused(erase(MALFORMED[i], 0), 7) && refused(erase(F + 1, MALFORMED[i]), 7));
    }
    HOLDS(erased(erase_in(ROW, FIGURES, REPLY, F, A), 0, A));
    set(A, 0, 0, 0);
    HOLDS(erased(erase_in(ROW, FIGURES, ROOM, F, A), 0, A)); /* a longer reply */
    clear();
    HOLDS(refused(erase(7, A), 7) && refused(erase(F, 7), 7) && outcome(erase(F, A), 41)); /* no rows */
}

static void outcomes(void)
{
    const uint64_t unknown[] = {10492123400, 10492123402, 1492123401, 100492123401, 14915100001};
    const uint64_t others[] = {14915100002, 10492123401, 104915100001, 1915100001, 100000};
    for (uint64_t phase = 0; phase <= 12; phase++)
        for (int by_b = 0; by_b <= 1; by_b++) {
            const uint64_t addressee = phase == 0 ? 0 : C, supervisor = phase == 0 || !by_b ? 0 : B;
            set(0, phase, addressee, supervisor);
            HOLDS(outcome(erase(F, A), 62) && outcome(erase(F, B), 62) && outcome(erase(F, C), 62));
            set(A, phase, addressee, supervisor);
            for (size_t i = 0; i < sizeof unknown / sizeof *unknown; i++)
                HOLDS(outcome(erase(unknown[i], A), 41) && outcome(erase(unknown[i], B), 41));
            for (size_t i = 0; i < sizeof others / sizeof *others; i++)
                HOLDS(outcome(erase(F, others[i]), 63));
            HOLDS(phase == 0 ? erased(erase(F, A), 0, A) : outcome(erase(F, A), 68));
            set(C, phase, addressee, supervisor); /* held again by her who is to be told */
            HOLDS(phase == 0 ? erased(erase(F, C), 0, C) : outcome(erase(F, C), 68));
        }
    set(A, 5, A, 0); /* and a supervisor waits for the terminal's notice, unless she holds the number */
    HOLDS(outcome(ask(B, "##214*0492123401*88*4915100001*#"), 68));
    set(B, 5, A, 0);
    HOLDS(is(ask(B, "##214*0492123401*88*4915100002*#"), FFN_OUTCOME, 2, 2, 0) && is_row(0, 5, A, 0, 0));
}

static void sendings(void)
{
    set(0, 1, A, 0);
    for (uint32_t n = 1; n <= 6; n++) { /* up to six, and it stays one from the terminal */
        HOLDS(sent_blank(600, 1000 * n) && is_row(0, 2 * n, A, 0, 0));
        HOLDS(is(take(5, 1000 * n), FFN_RESULT, n == 6 ? FFN_DROPPED : FFN_AGAIN, 0, 0));
        HOLDS(n == 6 ? is_row(0, 0, 0, 0, 0) : is_row(0, 2 * n + 1, A, 0, 1000 * n));
    }
    const char digits[] = "012345678901234"; /* a number of every length, 11 digits end in a carriage return */
    uint64_t low = 1, value = 0;
    for (int count = 1; count <= 15; count++) {
        char text[ROOM];
        uint8_t octets[ROOM];
        low *= 10;
        value = 10 * value + (uint64_t)(digits[count - 1] - '0');
        if (count < 5)
            continue;
        snprintf(text, sizeof text, "##214*%.*s*88**#", count, digits);
        size_t length = pack(text, octets);
        clear();
        put(low + value, 0, 1, B, 0, 0);
        HOLDS(is(send(low + value, 0, 7), FFN_SENT, 0, length, B) && begins_with(now.buffer, ROOM, octets, length));
        HOLDS((now.buffer[length - 1] >> 1 == '\r') == (count == 11) && now.table[2] == 2 && now.table[4] == 0);
    }
}

/* The node's own reader and writer of requests take no blank MSISDN. */
static void no_request(void)
{
    uint8_t octets[ROOM], text[ROOM], frame[120], answer[120];
    size_t count = pack(BLANK, octets);
    HOLDS(count == sizeof BLANK_OCTETS && memcmp(octets, BLANK_OCTETS, count) == 0);
    fill(text, sizeof text);
    struct ffn_request_read read = ffn_read_request(octets, count, text, sizeof text);
    HOLDS(read.class_ == FFN_ERROR && read.number == 36 && read.functional_number == 0 && untouched(text, 0, ROOM));
    set(A, 0, 0, 0);
    HOLDS(is(ask(A, BLANK), FFN_ERROR, 36, 0, 0) && left() && is(ask(B, BLANK), FFN_ERROR, 36, 0, 0) && left());

    fill(text, sizeof text); /* and 0 is written as none */
    struct ffn_answer written = ffn_write_request(FFN_ERASE, F, 0, octets, 0, text, sizeof text);
    count = pack("##214*0492123401***#", octets);
    HOLDS(is(written, FFN_WRITTEN, 0, count, 0) && begins_with(text, sizeof text, octets, count));

    /* In a frame: that of a forced erasure has 28 octets of string where the blank one has 20. */
    written = ffn_write_register(0, 1, FFN_ERASE, F, A, octets, 0, frame, sizeof frame);
    HOLDS(written.class_ == FFN_WRITTEN);
    struct ffn_frame_read place = ffn_read_register(frame, written.count);
    HOLDS(place.class_ == FFN_READ && place.length == 28);
    memcpy(frame + place.start, BLANK_OCTETS, 20);
    memmove(frame + place.start + 20, frame + place.start + 28, written.count - place.start - 28);
    frame[3] -= 8; /* the lengths of the element, the component, the sequence and the string */
    frame[5] -= 8;
    frame[13] -= 8;
    frame[place.start - 1] -= 8;
    lend();
    struct ffn_answer a = ffn_framed_request(now.table, ROW, now.figures, FIGURES, LIST, 6, answer, sizeof answer, B, frame, written.count - 8);
    HOLDS(is(a, FFN_RETURN_ERROR, 36, 12, 0) && left());
}

/* The table is sound or not for a recount, a finding, a request, a sending, a result and the terminal alike. */
static int unsound(void)
{
    struct ffn_figures n = ffn_recount(now.table, ROW * rows);
    return n.class_ == FFN_REFUSAL && n.number == 2 && is(ffn_finding(now.table, ROW * rows, 0, 0), FFN_REFUSAL, 2, 0, 0)
        && refused(ask(A, "*#214*0492123401***#"), 2) && refused(send(F, 0, 0), 2) && refused(take(0, 0), 2) && refused(erase(F, A), 2);
}

static void soundness(void)
{
    for (uint64_t phase = 1; phase <= 12; phase++) {
        set(0, phase, A, 0);
        struct ffn_figures n = ffn_recount(now.table, ROW);
        HOLDS(n.class_ == FFN_COUNTED && n.held == 0 && n.waiting == phase % 2 && n.in_flight == 1 - phase % 2);
        now.table[5] = 1;
        HOLDS((phase % 2 == 1 && phase > 1) != unsound()); /* where a failure may stand */
        now.table[5] = (uint64_t)1 << 32;
        HOLDS(unsound());
        set(0, phase, 0, 0);
        HOLDS(unsound()); /* to nobody */
        set(0, phase, 0, B);
        HOLDS(unsound());
        set(0, phase, A, A);
        HOLDS(unsound()); /* from her who is told */
        for (size_t i = 0; i < MALFORMED_WORDS; i++) {
            set(0, phase, MALFORMED[i], 0);
            HOLDS(unsound());
            set(0, phase, A, MALFORMED[i]);
            HOLDS(MALFORMED[i] == 0 || unsound());
        }
    }
    set(0, 0, A, 0);
    HOLDS(unsound());
    set(0, 0, 0, B);
    HOLDS(unsound());
    set(0, 13, A, 0);
    HOLDS(unsound());
}

int main(void)
{
    example();
    rows_of_a_table();
    refusals();
    outcomes();
    sendings();
    no_request();
    soundness();
    return all_hold();
}
