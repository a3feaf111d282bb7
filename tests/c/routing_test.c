/* Where a text message goes, through the C library: the MSISDN behind a functional number, or the network to ask. Ends at the first fact that does not hold, with its line. */
#include <stdio.h>
#include <string.h>

#include "facts.h"
#include "ffn.h"

/* Rows that a table may have here, and the room of a code and of digits. */
enum { ROWS = 12, CODE = 3, FEWEST = 5, MOST = 15, ROOM = 40 };

static const uint64_t A = 14915100001, B = 14915100002, C = 14915100003, F = 10492123401;

/* All that a call is lent, and what it was before. */
struct lent {
    uint64_t table[ROW * ROWS];
    uint8_t code[ROOM], digits[ROOM];
};
static struct lent now, before;
static size_t rows;

/* No rows, and memory that shows whether something wrote there. */
static void clear(void)
{
    fill(&now, sizeof now);
    rows = 0;
}

static void put(uint64_t number, uint64_t holder, uint64_t phase, uint64_t closed)
{
    const uint64_t row[ROW] = {number, holder, phase, phase == 0 ? 0 : C, 0, 0, closed};
    memcpy(now.table + ROW * rows, row, sizeof row);
    rows += 1;
}

/* One number alone. */
static void set(uint64_t number, uint64_t holder)
{
    clear();
    put(number, holder, 0, 0);
}

static struct ffn_route ask_in(size_t table_words, const char *code, const char *digits, uint8_t coded)
{
    fill(now.code, ROOM);
    fill(now.digits, ROOM);
    memcpy(now.code, code, strlen(code));
    memcpy(now.digits, digits, strlen(digits));
    memcpy(&before, &now, sizeof now);
    return ffn_routing(now.table, table_words, now.code, strlen(code), now.digits, strlen(digits), coded);
}

/* The node's code is 049. */
static struct ffn_route ask(const char *digits, uint8_t coded)
{
    return ask_in(ROW * rows, "049", digits, coded);
}

/* Every field, and every word and octet is as it was lent. */
static int is(struct ffn_route r, uint32_t class_, uint32_t number, uint64_t msisdn, const uint8_t *code, const uint8_t *subaddress)
{
    const uint8_t none[3] = {0};
    return r.class_ == class_ && r.number == number && r.msisdn == msisdn && memcmp(r.code, code ? code : none, 3) == 0
        && memcmp(r.subaddress, subaddress ? subaddress : none, 3) == 0 && r.subaddress_octets == (subaddress ? 3 : 0)
        && memcmp(&now, &before, sizeof now) == 0;
}

static int routed(struct ffn_route r, uint64_t msisdn)
{
    return is(r, FFN_ROUTED, 0, msisdn, NULL, NULL);
}

/* With a subaddress, whose third octet is this. */
static int routed_with(struct ffn_route r, uint64_t msisdn, uint8_t branch)
{
    const uint8_t subaddress[3] = {0x80, 0x48, branch};
    return is(r, FFN_ROUTED, 0, msisdn, NULL, subaddress);
}

static int asks(struct ffn_route r, const char *code)
{
    return is(r, FFN_ASK_NETWORK, 0, 0, (const uint8_t *)code, NULL);
}

static int outcome(struct ffn_route r, uint32_t number)
{
    return is(r, FFN_OUTCOME, number, 0, NULL, NULL);
}

static int error(struct ffn_route r)
{
    return is(r, FFN_ERROR, 36, 0, NULL, NULL);
}

static int refused(struct ffn_route r)
{
    return is(r, FFN_REFUSAL, 2, 0, NULL, NULL);
}

/* Digits in stored form. */
static uint64_t stored(const char *digits)
{
    uint64_t word = 1;
    for (; *digits != 0; digits++)
        word = 10 * word + (uint64_t)(*digits - '0');
    return word;
}

static void example(void)
{
    set(F, A);
    HOLDS(routed_with(ask("0492123401", 1), 14915100001, 0x10) && routed_with(ask("2123401", 0), 14915100001, 0x10));
    HOLDS(routed_with(ask("0492123401", 2), A, 0x10) && routed_with(ask("0492123401", 255), A, 0x10)); /* any but 0 */
    HOLDS(asks(ask("0332123401", 1), "033") && outcome(ask("0332123401", 0), 41));
    HOLDS(outcome(ask("0492123402", 1), 41) && outcome(ask("2123402", 0), 41));
    set(F, 0);
    HOLDS(outcome(ask("0492123401", 1), 62) && outcome(ask("2123401", 0), 62));
    clear();
    HOLDS(outcome(ask("0492123401", 1), 41) && outcome(ask("2123401", 0), 41)); /* no rows */
}

/* The code is put in front again where the digits begin with it. */
static void put_in_front(void)
{
    set(F, A);
    HOLDS(outcome(ask("0492123401", 0), 41));
    put(stored("0490492123401"), B, 0, 0);
    HOLDS(routed(ask("0492123401", 0), B) && routed(ask("0490492123401", 1), B));
    HOLDS(routed_with(ask("0492123401", 1), A, 0x10) && routed_with(ask("2123401", 0), A, 0x10));
}

/* A foreign code, whatever the table has; it is compared as its digits stand. */
static void networks(void)
{
    const char *const foreign[] = {"0332123401", "0482123401", "0592123401", "1492123401", "9402123401", "0002123401", "9992123401"};
    for (size_t i = 0; i < sizeof foreign / sizeof *foreign; i++) {
        clear();
        HOLDS(asks(ask(foreign[i], 1), foreign[i]));
        set(stored(foreign[i]), A);
        HOLDS(asks(ask(foreign[i], 1), foreign[i]));
        set(stored(foreign[i]), 0);
        HOLDS(asks(ask(foreign[i], 1), foreign[i]));
    }
    set(stored("0332123401"), B); /* that network's own node */
    HOLDS(routed_with(ask_in(ROW, "033", "0332123401", 1), B, 0x10) && routed_with(ask_in(ROW, "033", "2123401", 0), B, 0x10));
    HOLDS(asks(ask_in(ROW, "033", "0492123401", 1), "049"));
}

static void counts(void)
{
    const char all[] = "04911234567890123456", abroad[] = "03321234567890123456";
    char digits[ROOM], foreign[ROOM];
    for (int count = 0; count <= 20; count++) {
        const int is_number = count >= FEWEST && count <= MOST;
        snprintf(digits, sizeof digits, "%.*s", count, all);
        snprintf(foreign, sizeof foreign, "%.*s", count, abroad);
        set(is_number ? stored(digits) : F, B);
        HOLDS(is_number ? routed(ask(digits, 1), B) : error(ask(digits, 1)));
        HOLDS(is_number ? asks(ask(foreign, 1), "033") : error(ask(foreign, 1)));
        HOLDS(count < CODE || (is_number ? routed(ask(digits + CODE, 0), B) : error(ask(digits + CODE, 0))));
    }
    set(stored("04921"), A); /* of five digits the fourth is also the branch's first */
    HOLDS(routed_with(ask("04921", 1), A, 0x12) && routed_with(ask("21", 0), A, 0x12));
    HOLDS(error(ask("0492", 1)) && error(ask("2", 0)) && error(ask("", 1)) && error(ask("", 0)));
    set(stored("049212345678901"), A);
    HOLDS(routed_with(ask("049212345678901", 1), A, 0x10) && routed_with(ask("212345678901", 0), A, 0x10));
    HOLDS(error(ask("0492123456789012", 1)) && error(ask("2123456789012", 0)));
}

static void types(void)
{
    char digits[ROOM];
    for (int type = 0; type <= 9; type++)
        for (int branch = 0; branch <= 99; branch++) {
            const uint8_t octet = (uint8_t)(16 * (branch % 10) + branch / 10);
            snprintf(digits, sizeof digits, "049%d1234%02d", type, branch);
            set(stored(digits), B);
            if (type >= 2 && type <= 4)
                HOLDS(routed_with(ask(digits, 1), B, octet) && routed_with(ask(digits + CODE, 0), B, octet));
            else
                HOLDS(routed(ask(digits, 1), B) && routed(ask(digits + CODE, 0), B));
            set(stored(digits), 0);
            HOLDS(outcome(ask(digits, 1), 62));
        }
}

/* Each character that is no digit, in each place of the digits and of the node's code. */
static void characters(void)
{
    char digits[ROOM], code[ROOM];
    set(F, A);
    for (int character = 1; character <= 255; character++) {
        if (character >= '0' && character <= '9')
            continue;
        for (int place = 0; place < 10; place++) {
            strcpy(digits, "0492123401");
            digits[place] = (char)character;
            HOLDS(error(ask(digits, 1)) && error(ask(digits, 0)));
        }
        for (int place = 0; place < CODE; place++) {
            strcpy(code, "049");
            code[place] = (char)character;
            HOLDS(error(ask_in(ROW, code, "0492123401", 1)) && error(ask_in(ROW, code, "2123401", 0)));
        }
    }
    const uint8_t zeros[10] = {0}; /* and the value 0, which ends a string */
    HOLDS(error(ffn_routing(now.table, ROW, (const uint8_t *)"049", CODE, zeros, 10, 1)));
    HOLDS(error(ffn_routing(now.table, ROW, zeros, CODE, (const uint8_t *)"2123401", 7, 0)));
    HOLDS(routed_with(ask("0492123401", 1), A, 0x10));
}

/* The node's code has exactly three digits, also where it is not put in front. */
static void codes(void)
{
    const char *const wrong[] = {"", "0", "04", "0492", "04921", "04a", "a49", "0492123401"};
    set(F, A);
    for (size_t i = 0; i < sizeof wrong / sizeof *wrong; i++) {
        HOLDS(error(ask_in(ROW, wrong[i], "0492123401", 1)) && error(ask_in(ROW, wrong[i], "2123401", 0)));
        HOLDS(error(ask_in(ROW, wrong[i], "0332123401", 1)));
        HOLDS(refused(ask_in(ROW - 1, wrong[i], "0492123401", 1)) && refused(ask_in(ROW - 1, wrong[i], "", 0))); /* 2 before it */
    }
    HOLDS(error(ask_in(ROW, "04", "92123401", 0)) && error(ask_in(ROW, "0492", "123401", 0))); /* F's digits, divided otherwise */
}

static void unsound(void)
{
    set(F, A);
    for (size_t words = 1; words < ROW; words++)
        HOLDS(refused(ask_in(words, "049", "0492123401", 1)) && refused(ask_in(words, "049", "0332123401", 1)));
    set(F, 7); /* a malformed holder */
    HOLDS(refused(ask("0492123401", 1)) && refused(ask("0332123401", 1)) && refused(ask("049212340a", 1)) && refused(ask("", 0)));
    set(F, A);
    put(F, A, 0, 0); /* twice */
    HOLDS(refused(ask("0492123401", 1)));
    set(F, A);
    now.table[ROW - 1] = 2; /* neither open nor closed */
    HOLDS(refused(ask("0492123401", 1)));
    now.table[ROW - 1] = 1;
    HOLDS(routed_with(ask("0492123401", 1), A, 0x10));
}

/* The number's own row answers, wherever it stands, closed or with a notice; leading zeros count. */
static void rows_of_a_table(void)
{
    char digits[ROOM];
    for (size_t held = 0; held < ROWS; held++) {
        clear();
        for (size_t i = 0; i < ROWS; i++)
            put(F + i, i == held ? A : i % 2 == 0 ? B : 0, i, i % 3 == 0);
        for (size_t i = 0; i < ROWS; i++) {
            snprintf(digits, sizeof digits, "0492123%03d", (int)(401 + i));
            const uint8_t branch = (uint8_t)(16 * ((1 + i) % 10) + (1 + i) / 10);
            struct ffn_route r = ask(digits, 1);
            HOLDS(i != held && i % 2 != 0 ? outcome(r, 62) : routed_with(r, i == held ? A : B, branch));
        }
    }
    set(stored("00020000"), A);
    HOLDS(routed_with(ask_in(ROW, "000", "00020000", 1), A, 0) && routed_with(ask_in(ROW, "000", "20000", 0), A, 0));
    HOLDS(outcome(ask_in(ROW, "000", "0002000", 1), 41) && outcome(ask_in(ROW, "000", "000020000", 1), 41));
    HOLDS(outcome(ask_in(ROW, "002", "0020000", 1), 41) && asks(ask_in(ROW, "002", "00020000", 1), "000"));
}

/* The answer follows the holder, and the figures and the notice stay. */
static void between_requests(void)
{
    const uint64_t list[4] = {14915100001, 1, 14915100002, 3};
    const char *const texts[] = {"**214*0492123401***#", "##214*0492123401*88*4915100001*#"};
    uint64_t figures[3] = {0, 0, 0};
    uint8_t string[ROOM], reply[80];
    set(F, 0);
    for (int i = 0; i < 2; i++) {
        struct ffn_answer packed = ffn_pack((const uint8_t *)texts[i], strlen(texts[i]), string, sizeof string);
        HOLDS(packed.class_ == FFN_WRITTEN && outcome(ask("2123401", 0), 62) == (i == 0));
        struct ffn_answer a = ffn_request(now.table, ROW, figures, 3, list, 4, reply, sizeof reply, list[2 * i], 0x0F, string, packed.count);
        HOLDS(a.class_ == FFN_OUTCOME && a.number == (uint32_t)i + 1);
        HOLDS(i == 0 ? routed_with(ask("2123401", 0), A, 0x10) : outcome(ask("2123401", 0), 62));
    }
    HOLDS(figures[0] == 0 && figures[1] == 1 && now.table[2] == 1 && now.table[3] == A && now.table[4] == B);
}

int main(void)
{
    example();
    put_in_front();
    networks();
    counts();
    types();
    characters();
    codes();
    unsound();
    rows_of_a_table();
    between_requests();
    return all_hold();
}
