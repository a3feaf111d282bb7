/* Numbers closed, compacted away and added, through the C library. Ends at the first fact that does not hold, with its line. */
#include <string.h>

#include "facts.h"
#include "ffn.h"

/* The most rows, octets of a word; the buffer has room for one row more than the most, and for something behind. */
enum { MOST_ROWS = 1024, WORD = 8, BEHIND = 5, ROOM = ROW * (MOST_ROWS + 1) + BEHIND };

static const uint64_t A = 14915100001, B = 14915100002, C = 14915100003, F = 10492123401;
static const uint64_t LIST[6] = {14915100001, 1, 14915100002, 3, 14915100003, 0};

/* The rows in use at the front of a buffer, with their figures, and what is expected there. */
static uint64_t words[ROOM], expected[ROOM], figures[4];
static size_t rows;

static int is(struct ffn_answer a, uint32_t class_, uint32_t number, size_t count, uint64_t value)
{
    return a.class_ == class_ && a.number == number && a.count == count && a.value == value;
}

/* No rows, and words that show whether something wrote there. */
static void clear(void)
{
    fill(words, sizeof words);
    memset(figures, 0, sizeof figures);
    rows = 0;
}

/* One more row in use, free or held and with a notice in flight or none; the figures follow. */
static void put(uint64_t number, uint64_t holder, int notice, uint64_t closed)
{
    const uint64_t row[ROW] = {number, holder, notice ? 2 : 0, notice ? A : 0, notice ? B : 0, 0, closed};
    memcpy(words + ROW * rows, row, sizeof row);
    rows += 1;
    figures[0] += holder != 0;
    figures[2] += notice != 0;
}

/* The buffer as it stands is what is expected. */
static void expect(void)
{
    memcpy(expected, words, sizeof words);
}

static int as_expected(void)
{
    return memcmp(words, expected, sizeof words) == 0;
}

static struct ffn_answer close_number(uint64_t number)
{
    return ffn_close(words, ROW * rows, figures, 3, number);
}

static struct ffn_answer compact(void)
{
    return ffn_compact(words, ROOM, rows, figures, 3);
}

static struct ffn_answer add(uint64_t number)
{
    return ffn_add(words, ROOM, rows, figures, 3, number);
}

/* The outcome of a request on the rows in use. */
static uint32_t ask(uint64_t requester, const char *text)
{
    uint8_t string[160], reply[80];
    struct ffn_answer packed = ffn_pack((const uint8_t *)text, strlen(text), string, sizeof string);
    struct ffn_answer a = ffn_request(words, ROW * rows, figures, 3, LIST, 6, reply, sizeof reply, requester, 0x0F, string, packed.count);
    HOLDS(a.class_ == FFN_OUTCOME);
    return a.number;
}

/* A closed number is not registered, whoever holds it and whoever asks; all else goes on and leaves the word. */
static void closed_numbers(void)
{
    const uint64_t holders[] = {0, 14915100001, 14915100002, 14915100003};
    for (size_t i = 0; i < sizeof holders / sizeof *holders; i++) {
        clear();
        put(F, holders[i], 0, 1);
        expect();
        HOLDS(ask(A, "**214*0492123401***#") == 64 && ask(B, "**214*0492123401***#") == 64);
        HOLDS(ask(C, "**214*0492123401***#") == 42 && ask(A, "**214*492123401***#") == 41);
        HOLDS(ask(A, "*#214*0492123401***#") == (holders[i] == 0 ? 62 : 3) && as_expected());
        clear();
        put(A, holders[i], 0, 1);
        expect();
        HOLDS(ask(A, "**214*4915100001***#") == 67 && ask(B, "**214*4915100001***#") == 64 && as_expected());
    }
    clear(); /* a crew: the lead is closed, 02 is not, 03 is held by A and closed */
    put(F, 0, 0, 1);
    put(F + 1, A, 0, 0);
    put(F + 2, A, 0, 1);
    expect();
    words[ROW + 1] = 0;
    figures[0] -= 1;
    HOLDS(ask(A, "**214*0492123401***BULK2 0203#") == 11 && as_expected() && figures[0] == 2);
    HOLDS(ask(A, "##214*0492123401***BULK2 0203#") == 12 && figures[0] == 0);
    HOLDS(words[6] == 1 && words[ROW + 6] == 0 && words[2 * ROW + 6] == 1);

    clear(); /* closed while held, forced off, told, and spent */
    put(F, A, 0, 0);
    HOLDS(is(close_number(F), FFN_CLOSED, 0, 0, 0));
    HOLDS(ask(B, "##214*0492123401*88*4915100001*#") == 2 && words[2] == 1 && words[6] == 1);
    uint8_t notice[80];
    HOLDS(is(ffn_sending(words, ROW, figures, 3, notice, sizeof notice, F, 60, 100), FFN_SENT, 0, 28, A));
    HOLDS(is(compact(), FFN_ROWS, 0, 1, 0)); /* not yet */
    HOLDS(is(ffn_result(words, ROW, figures, 3, F, 0, 101), FFN_RESULT, FFN_DELIVERED, 0, 0) && words[6] == 1);
    HOLDS(ask(A, "**214*0492123401***#") == 64 && ask(A, "##214*0492123401***#") == 62);
    HOLDS(is(compact(), FFN_ROWS, 0, 0, 1) && words[0] == 0 && words[6] == 0 && untouched(words, WORD * ROW, sizeof words));
}

static void closing(void)
{
    clear();
    put(F, A, 0, 0);
    put(F + 2, B, 1, 0);
    put(F + 4, 0, 1, 1);
    for (size_t i = 0; i < 3; i++) {
        words[ROW * i + 6] = 1;
        expect();
        words[ROW * i + 6] = i == 2;
        HOLDS(is(close_number(F + 2 * i), FFN_CLOSED, 0, 0, 0) && as_expected());
        HOLDS(is(close_number(F + 2 * i), FFN_CLOSED, 0, 0, 0) && as_expected()); /* again: no change */
    }
    const uint64_t malformed[] = {0, 7, 19999, 200000, 492123401, 10000000000000000, UINT64_MAX};
    for (size_t i = 0; i < sizeof malformed / sizeof *malformed; i++)
        HOLDS(is(close_number(malformed[i]), FFN_REFUSAL, 7, 0, 0));
    HOLDS(is(close_number(F + 1), FFN_REFUSAL, 52, 0, 0) && is(close_number(1492123401), FFN_REFUSAL, 52, 0, 0));
    for (size_t i = 0; i <= 4; i++) /* figures of another length, before the number */
        HOLDS(is(ffn_close(words, ROW * rows, figures, i, 7), FFN_REFUSAL, i == 3 ? 7 : 10, 0, 0));
    HOLDS(is(ffn_close(words, ROW * rows - 1, figures, 2, 7), FFN_REFUSAL, 2, 0, 0) && as_expected());
    figures[0] += 1;
    HOLDS(is(close_number(7), FFN_REFUSAL, 10, 0, 0) && is(close_number(F), FFN_REFUSAL, 10, 0, 0) && as_expected());
    clear();
    HOLDS(is(close_number(7), FFN_REFUSAL, 7, 0, 0) && is(close_number(F), FFN_REFUSAL, 52, 0, 0) && untouched(words, 0, sizeof words));
}

/* Rows of which every one with i % step == 0 is closed and spent. What is left of them, and zeros for the rest. */
static size_t set_rows(size_t count, size_t step)
{
    size_t left = 0;
    clear();
    fill(expected, sizeof expected);
    for (size_t i = 0; i < count; i++) {
        if (i % step == 0) {
            put(F + i, 0, 0, 1);
            continue;
        }
        put(F + i, i % 4 == 1 ? A : 0, i % 4 == 2, i % 4 == 1 || i % 4 == 2); /* closed but held, or with a notice; or open */
        memcpy(expected + ROW * left, words + ROW * i, WORD * ROW);
        left += 1;
    }
    memset(expected + ROW * left, 0, WORD * ROW * (count - left));
    return left;
}

static void compacting(void)
{
    const size_t counts[] = {0, 1, 2, 3, 8, 64, 1023, 1024}, steps[] = {1, 2, 3, 7, 1024};
    for (size_t c = 0; c < sizeof counts / sizeof *counts; c++)
        for (size_t s = 0; s < sizeof steps / sizeof *steps; s++) {
            size_t left = set_rows(counts[c], steps[s]);
            HOLDS(is(compact(), FFN_ROWS, 0, left, counts[c] - left) && as_expected());
            rows = left; /* again nothing goes */
            HOLDS(is(compact(), FFN_ROWS, 0, left, 0) && as_expected());
        }
    for (unsigned kind = 0; kind < 8; kind++) { /* only a closed row without holder and notice goes */
        clear();
        put(F, kind & 1 ? B : 0, kind & 2 ? 1 : 0, kind & 4 ? 1 : 0);
        HOLDS(is(compact(), FFN_ROWS, 0, kind == 4 ? 0 : 1, kind == 4));
        HOLDS(words[0] == (kind == 4 ? 0 : F) && untouched(words, WORD * ROW, sizeof words));
    }
    clear(); /* the words of the rows in use alone, and fewer rows in use than there are */
    put(F, 0, 0, 1);
    put(F + 1, 0, 0, 1);
    HOLDS(is(ffn_compact(words, ROW, 1, figures, 3), FFN_ROWS, 0, 0, 1) && words[0] == 0 && words[6] == 0 && words[ROW] == F + 1);
}

/* Compacting and adding these rows in so many words with so many figures are both refused, before the number, and change nothing. */
static int both_refused(size_t word_count, size_t count, size_t figure_words, uint32_t number)
{
    expect();
    return is(ffn_compact(words, word_count, count, figures, figure_words), FFN_REFUSAL, number, 0, 0)
        && is(ffn_add(words, word_count, count, figures, figure_words, F + 1), FFN_REFUSAL, number, 0, 0)
        && is(ffn_add(words, word_count, count, figures, figure_words, 7), FFN_REFUSAL, number, 0, 0) && as_expected();
}

static void refused_rows(void)
{
    const uint64_t inverse = 0x6DB6DB6DB6DB6DB7; /* seven times it wraps to 1 */
    HOLDS(inverse * ROW == 1);
    clear();
    put(F, A, 0, 0);
    put(F + 2, 0, 0, 1);
    for (size_t behind = 0; behind < 2 * ROW; behind++) {
        size_t count = 2 * ROW + behind;
        HOLDS(both_refused(count, count / ROW + 1, 3, 2) && both_refused(count, count / ROW + 1, 2, 2));
        HOLDS(both_refused(count, count, 3, 2) && both_refused(count, SIZE_MAX, 3, 2) && both_refused(count, SIZE_MAX / ROW + 1, 3, 2));
        for (unsigned bit = 5; bit < 64; bit++) /* as many more as wrap, in the words or in the octets they take */
            HOLDS(both_refused(count, 2 + ((uint64_t)1 << bit), 3, 2));
        for (uint64_t wrapped = 0; wrapped <= count; wrapped++)
            HOLDS(wrapped % ROW == 0 || both_refused(count, wrapped * inverse, 3, 2));
        HOLDS(both_refused(count, 2, 2, 10) && both_refused(count, 2, 4, 10) && both_refused(count, 2, 0, 10));
        HOLDS(both_refused(count, 0, 3, 10)); /* the figures are those of the rows in use */
    }
    figures[1] = 1;
    HOLDS(both_refused(ROOM, 2, 3, 10));
    words[ROW + 6] = 2; /* neither open nor closed */
    HOLDS(both_refused(ROOM, 2, 3, 2));
    words[ROW + 6] = 1;
    words[ROW] = F;
    HOLDS(both_refused(ROOM, 2, 3, 2));
    set_rows(MOST_ROWS + 1, 3);
    HOLDS(both_refused(ROOM, MOST_ROWS + 1, 3, 2));
    clear(); /* rows of six words, as they once were */
    put(F, 0, 0, 0);
    put(F + 2, 0, 0, 0);
    memmove(words + 6, words + ROW, WORD * 6);
    HOLDS(both_refused(ROOM, 2, 3, 2));
}

static void adding(void)
{
    const size_t counts[] = {0, 1, 2, 9, 1022, 1023};
    for (size_t c = 0; c < sizeof counts / sizeof *counts; c++)
        for (size_t place = 0; place <= counts[c]; place += place < 3 || place + 3 > counts[c] ? 1 : 97) {
            const uint64_t number = F + 2 * place;
            clear(); /* the rows with the new one, then without */
            for (size_t i = 0; i <= counts[c]; i++)
                put(F + 2 * i, i % 2 == 1 && i != place ? B : 0, i % 3 == 1 && i != place, i % 4 == 3 && i != place);
            expect();
            rows -= 1;
            memmove(words + ROW * place, words + ROW * (place + 1), WORD * ROW * (counts[c] - place));
            fill(words + ROW * rows, WORD * ROW);
            HOLDS(is(ffn_add(words, ROW * (rows + 1), rows, figures, 3, number), FFN_ROWS, 0, rows + 1, 0) && as_expected());
            HOLDS(is(ffn_add(words, ROOM, rows + 1, figures, 3, number), FFN_REFUSAL, 51, 0, 0) && as_expected());
        }
}

static void adding_checks(void)
{
    clear();
    put(F, A, 0, 0);
    put(F + 2, 0, 0, 1);
    expect();
    for (size_t behind = 0; behind < ROW; behind++) { /* no room for one more */
        HOLDS(is(ffn_add(words, 2 * ROW + behind, 2, figures, 3, F + 1), FFN_REFUSAL, 50, 0, 0));
        HOLDS(is(ffn_add(words, 2 * ROW + behind, 2, figures, 3, F + 2), FFN_REFUSAL, 51, 0, 0)); /* closed, and before the room */
        HOLDS(is(ffn_add(words, 2 * ROW + behind, 2, figures, 3, 0), FFN_REFUSAL, 7, 0, 0));
    }
    HOLDS(is(add(F), FFN_REFUSAL, 51, 0, 0) && is(add(F + 2), FFN_REFUSAL, 51, 0, 0) && is(add(492123401), FFN_REFUSAL, 7, 0, 0));
    HOLDS(is(add(UINT64_MAX), FFN_REFUSAL, 7, 0, 0) && is(add(10000000000000000), FFN_REFUSAL, 7, 0, 0) && as_expected());
    set_rows(MOST_ROWS, 3); /* 1,024 rows, though there is room */
    expect();
    HOLDS(is(add(F - 1), FFN_REFUSAL, 50, 0, 0) && is(add(F + MOST_ROWS), FFN_REFUSAL, 50, 0, 0));
    HOLDS(is(add(F + 3), FFN_REFUSAL, 51, 0, 0) && is(add(7), FFN_REFUSAL, 7, 0, 0) && as_expected());
}

/* A row is freed and used again, for the same number and for another. */
static void used_again(void)
{
    clear();
    put(F, 0, 0, 0);
    put(F + 1, B, 0, 0);
    expect();
    HOLDS(is(close_number(F), FFN_CLOSED, 0, 0, 0) && is(add(F), FFN_REFUSAL, 51, 0, 0));
    HOLDS(is(compact(), FFN_ROWS, 0, 1, 1) && words[0] == F + 1);
    rows = 1;
    HOLDS(is(ffn_add(words, 2 * ROW, 1, figures, 3, F), FFN_ROWS, 0, 2, 0) && as_expected());
    rows = 2;
    HOLDS(ask(A, "**214*0492123401***#") == 1 && ask(A, "##214*0492123401***#") == 2);
    HOLDS(is(close_number(F), FFN_CLOSED, 0, 0, 0) && is(compact(), FFN_ROWS, 0, 1, 1));
    rows = 1;
    HOLDS(is(ffn_add(words, 2 * ROW, 1, figures, 3, F + 2), FFN_ROWS, 0, 2, 0) && words[0] == F + 1 && words[ROW] == F + 2);
    HOLDS(untouched(words, WORD * 2 * ROW, sizeof words));
}

int main(void)
{
    closed_numbers();
    closing();
    compacting();
    refused_rows();
    adding();
    adding_checks();
    used_again();
    return all_hold();
}
