/* The radio's calls, refusals and rounds, through the C library; then rounds with the node's functions. Ends at the first fact that does not hold, with its line. */
#include <inttypes.h>
#include <stdio.h>
#include <string.h>

#include "facts.h"
#include "ffn.h"
#include "ffn_radio.h"

/* The layout that the library was compiled with. */
_Static_assert(sizeof(struct ffn_radio_entry) == 16, "entry");
_Static_assert(offsetof(struct ffn_radio_entry, unsure) == 8, "unsure");
_Static_assert(offsetof(struct ffn_radio_entry, to_ask) == 9, "to ask");
_Static_assert(sizeof(struct ffn_radio) == 280, "radio");
_Static_assert(offsetof(struct ffn_radio, count) == 8, "count");
_Static_assert(offsetof(struct ffn_radio, entries) == 16, "entries");
_Static_assert(offsetof(struct ffn_radio, hand_held) == 272, "hand-held");
_Static_assert(offsetof(struct ffn_radio, invoke) == 273, "invoke");
_Static_assert(sizeof(struct ffn_radio_doing) == 16, "doing");
_Static_assert(offsetof(struct ffn_radio_doing, respond) == 1, "respond");
_Static_assert(offsetof(struct ffn_radio_doing, invoke) == 2, "invoke");
_Static_assert(offsetof(struct ffn_radio_doing, octets) == 8, "octets");

/* A has the radio, B is a supervisor. F and the numbers behind it have one root, G has another, and so has SHORT: F's digits without their zero. */
static const uint64_t A = 14915100001, B = 14915100002, C = 14915100003;
static const uint64_t F = 10492123401, G = 10492123501, SHORT = 1492123401;

static const char NOTICE[] = "##214*0492123401*88*4915100002*#";

enum { ROOM = 200, QUESTION_ROOM = 160, MOST_STORED = 16 };

static struct ffn_radio radio, before;
static uint8_t question[ROOM];

static size_t pack(const char *text, uint8_t *out)
{
    struct ffn_answer packed = ffn_pack((const uint8_t *)text, strlen(text), out, ROOM);
    HOLDS(packed.class_ == FFN_WRITTEN);
    return packed.count;
}

/* A fresh radio of A's. */
static void fresh(uint8_t hand_held)
{
    memset(&radio, 0, sizeof radio);
    radio.own = A;
    radio.hand_held = hand_held;
}

/* Remembers what the call is lent. */
static void lend(void)
{
    memcpy(&before, &radio, sizeof radio);
    fill(question, sizeof question);
}

static struct ffn_radio_doing store(uint64_t number)
{
    lend();
    return ffn_radio_store(&radio, number);
}

static struct ffn_radio_doing notice(const char *text)
{
    uint8_t string[ROOM];
    size_t count = pack(text, string);
    lend();
    return ffn_radio_notice(&radio, string, count, question, QUESTION_ROOM);
}

static struct ffn_radio_doing reply_octets(uint8_t invoke, const uint8_t *string, size_t count)
{
    lend();
    return ffn_radio_reply(&radio, invoke, string, count, question, QUESTION_ROOM);
}

static struct ffn_radio_doing reply(uint8_t invoke, const char *text)
{
    uint8_t string[ROOM];
    return reply_octets(invoke, string, pack(text, string));
}

static int says(struct ffn_radio_doing d, uint8_t refusal, uint8_t respond, uint8_t invoke, size_t octets)
{
    return d.refusal == refusal && d.respond == respond && d.invoke == invoke && d.octets == octets;
}

/* What was lent is as it was, octet by octet. */
static int left(void)
{
    return memcmp(&radio, &before, sizeof radio) == 0 && untouched(question, 0, ROOM);
}

static int refused(struct ffn_radio_doing d, uint8_t number)
{
    return says(d, number, 0, 0, 0) && left();
}

/* A question: an interrogation of the number with these digits, the rest of the buffer as it was. */
static int asks(struct ffn_radio_doing d, uint8_t respond, uint8_t invoke, const char *digits)
{
    char text[ROOM];
    uint8_t string[ROOM];
    snprintf(text, sizeof text, "*#214*%s***#", digits);
    size_t count = pack(text, string);
    return says(d, 0, respond, invoke, count) && begins_with(question, ROOM, string, count) && radio.invoke == invoke;
}

/* No question. */
static int is_over(struct ffn_radio_doing d, uint8_t respond)
{
    return says(d, 0, respond, 0, 0) && untouched(question, 0, ROOM) && radio.invoke == before.invoke;
}

/* What is stored, as text: the digits of each number, ? where it is unsure, ! where it is still to be asked. Nothing lies behind. */
static int stores(const char *text)
{
    char shown[2 * ROOM] = "", digits[24];
    int length = 0;
    for (size_t i = 0; i < MOST_STORED; i++) {
        const struct ffn_radio_entry e = radio.entries[i];
        if (i >= radio.count && (e.number != 0 || e.unsure != 0 || e.to_ask != 0))
            return 0;
        if (i >= radio.count)
            continue;
        snprintf(digits, sizeof digits, "%" PRIu64, e.number);
        length += snprintf(shown + length, sizeof shown - (size_t)length, "%s%s%s%s", i == 0 ? "" : " ", digits + 1,
                           e.unsure == 1 ? "?" : "", e.to_ask == 1 ? "!" : "");
    }
    return radio.own == A && radio.hand_held == before.hand_held && strcmp(shown, text) == 0;
}

/* F, G and the number behind F. */
static void fresh_with_three(uint8_t hand_held)
{
    fresh(hand_held);
    HOLDS(says(store(F), 0, 0, 0, 0) && says(store(G), 0, 0, 0, 0) && says(store(F + 1), 0, 0, 0, 0));
    HOLDS(stores("0492123401 0492123501 0492123402"));
}

static void storing(void)
{
    fresh(0);
    HOLDS(is_over(store(F), 0) && stores("0492123401"));
    HOLDS(is_over(store(G), 0) && stores("0492123401 0492123501"));
    HOLDS(is_over(store(F), 0) && left()); /* twice */
    HOLDS(is_over(store(A), 0) && stores("0492123401 0492123501 4915100001")); /* a numbering of its own */
    HOLDS(is_over(store(100000), 0) && is_over(store(1999999999999999), 0));
    HOLDS(stores("0492123401 0492123501 4915100001 00000 999999999999999"));

    const uint64_t malformed[] = {0, 1, 19999, 99999, 200000, 4915100001, 2000000000000000, 10000000000000000, UINT64_MAX};
    for (size_t i = 0; i < sizeof malformed / sizeof *malformed; i++)
        HOLDS(refused(store(malformed[i]), 23));

    fresh(1);
    for (uint64_t i = 0; i < MOST_STORED; i++)
        HOLDS(is_over(store(F + i), 0) && radio.count == i + 1 && radio.entries[i].number == F + i);
    HOLDS(refused(store(F + 16), 20) && refused(store(G), 20));
    HOLDS(refused(store(0), 23)); /* before 20 */
    for (uint64_t i = 0; i < MOST_STORED; i++)
        HOLDS(is_over(store(F + i), 0) && left());
}

static void noticing(void)
{
    fresh_with_three(0);
    store(SHORT);
    HOLDS(asks(notice(NOTICE), 1, 1, "0492123401"));
    HOLDS(stores("0492123401! 0492123501 0492123402! 492123401"));
    HOLDS(asks(notice("##214*0492123499*88*4915100002*TRAIN 4711#"), 1, 2, "0492123401")); /* not stored, but of the root */
    HOLDS(stores("0492123401! 0492123501 0492123402! 492123401"));
    HOLDS(asks(notice("##214*492123499*88*4915100002*#"), 1, 3, "492123401"));
    HOLDS(stores("0492123401 0492123501 0492123402 492123401!"));
    HOLDS(is_over(notice("##214*00492123401*88*4915100002*#"), 1)); /* no number of its root */
    HOLDS(stores("0492123401 0492123501 0492123402 492123401"));

    fresh(0);
    HOLDS(is_over(notice(NOTICE), 1) && stores("")); /* nothing is stored */
    fresh(1);
    HOLDS(is_over(notice(NOTICE), 1) && stores(""));
    store(100000);
    HOLDS(asks(notice(NOTICE), 1, 1, "00000") && stores("00000!"));
    fresh(1);
    store(1999999999999999);
    HOLDS(asks(notice(NOTICE), 1, 1, "999999999999999"));
}

/* What is no notice, with a question open and without. */
static void no_notices(void)
{
    static const char *const others[] = {
        "##214*0492123401***#", "**214*0492123401***#", "*#214*0492123401***#",
        "**214*0492123401*88*4915100002*#", "##213*0492123401*88*4915100002*#", "##214*0492123401*89*4915100002*#",
        "##214*0492*88*4915100002*#", "##214*0492123401*88*4915100002*BULK0#", "##214*0492123401*88*4915100002*# ",
        "##214*0492123401*88*4915100002*", "**214*0492123401***BULK1 02#", "03 4915100001", "62", "",
        "**214*0492123401*88**#", "*#214*0492123401*88**#", "##213*0492123401*88**#", "##214*0492123401*89**#", /* the blank form */
        "##214*0492*88**#", "##214*1234567890123456*88**#", "##214*0492123401*88*#", "##214*0492123401*88***#",
        "##214*0492123401*88**", "##214*0492123401*88**# ", "##214*0492123401*88**a#", "##214*0492123401*88**BULK#",
        "##214*0492123401*88**BULK0#", "##214*0492123401*88**BULK1 02#", "##214*0492123401*88**0123456789012345678901234567890#",
        "##214*0492123401*88*0*#", "##214*0492123401*88*4915*#", "##214*0492123401*88* *#"};
    uint8_t string[ROOM];
    fresh_with_three(0);
    for (int open = 0; open <= 1; open++) {
        for (size_t i = 0; i < sizeof others / sizeof *others; i++)
            HOLDS(refused(notice(others[i]), 21));
        size_t count = pack("##214*0492123401*88*4915100002*12345#", string); /* 37 characters in 33 octets: bits are left over */
        string[count - 1] |= 0x80;
        lend();
        HOLDS(refused(ffn_radio_notice(&radio, string, count, question, QUESTION_ROOM), 21));
        count = pack("##214*0492123401*88**#", string); /* 22 characters in 20 octets: six bits are left over */
        string[count - 1] |= 0x04;
        lend();
        HOLDS(refused(ffn_radio_notice(&radio, string, count, question, QUESTION_ROOM), 21));
        memset(string, 0x55, sizeof string);
        lend();
        HOLDS(refused(ffn_radio_notice(&radio, string, sizeof string, question, QUESTION_ROOM), 21));
        HOLDS(asks(notice(NOTICE), 1, (uint8_t)(open + 1), "0492123401"));
    }
}

/* A notice from the terminal begins a round as a supervisor's does, with a question open and without. */
static void from_the_terminal(void)
{
    static const char *const fields[] = {"", " ", "7", "CAB 7", "BUL", " BULK0", "012345678901234567890123456789"};
    for (size_t i = 0; i < sizeof fields / sizeof *fields; i++) {
        char text[ROOM];
        snprintf(text, sizeof text, "##214*0492123499*88**%s#", fields[i]);
        fresh_with_three(0);
        HOLDS(asks(notice(text), 1, 1, "0492123401") && stores("0492123401! 0492123501 0492123402!"));
        HOLDS(asks(reply(1, "62"), 0, 2, "0492123402"));
        HOLDS(asks(notice(text), 1, 3, "0492123402") && stores("0492123501 0492123402!"));
        HOLDS(is_over(reply(3, "03 4915100001"), 0) && stores("0492123501 0492123402"));
        fresh_with_three(1);
        HOLDS(asks(notice(text), 1, 1, "0492123401") && stores("0492123401! 0492123501! 0492123402!"));
    }
    fresh_with_three(0);
    HOLDS(is_over(notice("##214*492123401*88**#"), 1) && stores("0492123401 0492123501 0492123402")); /* no number of its root */
}

static void a_cab_radio_asks_one_root(void)
{
    fresh_with_three(0);
    store(F + 2);
    store(SHORT);
    HOLDS(asks(notice(NOTICE), 1, 1, "0492123401"));
    HOLDS(asks(reply(1, "62"), 0, 2, "0492123402"));
    HOLDS(stores("0492123501 0492123402! 0492123403! 492123401"));
    HOLDS(is_over(store(F + 3), 0) && is_over(store(F + 2), 0)); /* new: it waits for the next round; stored: nothing changes */
    HOLDS(stores("0492123501 0492123402! 0492123403! 492123401 0492123404"));
    HOLDS(asks(reply(2, "41"), 0, 3, "0492123403"));
    HOLDS(stores("0492123501 0492123402? 0492123403! 492123401 0492123404"));
    HOLDS(is_over(reply(3, "03 4915100001"), 0));
    HOLDS(stores("0492123501 0492123402? 0492123403 492123401 0492123404"));
    HOLDS(refused(reply(3, "03 4915100001"), 22) && refused(reply(4, "62"), 22)); /* the round is over */

    HOLDS(asks(notice(NOTICE), 1, 4, "0492123402")); /* and the next one: the mark stays until the reply */
    HOLDS(stores("0492123501 0492123402?! 0492123403! 492123401 0492123404!"));
    HOLDS(asks(reply(4, "03 4915100001"), 0, 5, "0492123403"));
    HOLDS(asks(reply(5, "03 4915100003"), 0, 6, "0492123404"));
    HOLDS(is_over(reply(6, "62"), 0) && stores("0492123501 0492123402 492123401"));
}

static void a_hand_held_asks_all(void)
{
    fresh_with_three(1);
    store(SHORT);
    HOLDS(asks(notice("##214*12345*88*4915100002*#"), 1, 1, "0492123401"));
    HOLDS(stores("0492123401! 0492123501! 0492123402! 492123401!"));
    HOLDS(asks(reply(1, "03 4915100001"), 0, 2, "0492123501"));
    HOLDS(asks(reply(2, "62"), 0, 3, "0492123402"));
    HOLDS(asks(reply(3, "42"), 0, 4, "492123401"));
    HOLDS(is_over(reply(4, "03 0492123401"), 0) && stores("0492123401 0492123402?"));

    fresh(1);
    for (uint64_t i = 0; i < MOST_STORED; i++)
        store(F + 100 * i);
    struct ffn_radio_doing d = notice(NOTICE);
    for (unsigned n = 1; n <= MOST_STORED; n++) { /* sixteen questions, and sixteen numbers go */
        HOLDS(says(d, 0, n == 1, (uint8_t)n, 18) && radio.count == 17 - n && radio.entries[0].number == F + 100 * (n - 1));
        d = reply((uint8_t)n, "62");
    }
    HOLDS(is_over(d, 0) && stores(""));
}

/* What a reply leaves of F, the first of two that are asked, marked or not. The next question follows in any case. */
static int leaves(const uint8_t *string, size_t count, const char *first)
{
    for (uint8_t unsure = 0; unsure <= 1; unsure++) {
        char text[ROOM];
        fresh_with_three(0);
        radio.entries[0].unsure = unsure;
        radio.entries[1].unsure = 1;
        HOLDS(asks(notice(NOTICE), 1, 1, "0492123401"));
        snprintf(text, sizeof text, "%s0492123501? 0492123402!", first);
        if (!asks(reply_octets(1, string, count), 0, 2, "0492123402") || !stores(text))
            return 0;
    }
    return 1;
}

static int leaves_by_text(const char *text, const char *first)
{
    uint8_t string[ROOM];
    return leaves(string, pack(text, string), first);
}

static void replies(void)
{
    static const char *const drop[] = {"62", "03 4915100002", "03 04915100001", "03 915100001", "03 12345", "03 123456789012345"};
    static const char *const mark[] = {"41", "42", "01", "02", "22", "63", "", "0", "03", "03 ", "03 1234", "03 1234567890123456",
        "034915100001", "03  4915100001", "03 4915100001 ", "03 49151 00001", " 03 4915100001", "3 4915100001", "13 4915100001",
        "03 62", "62 ", "620", "6", " 62", "11 2 0102 0", "03 4915100001 AND MORE THAN THAT"};
    HOLDS(leaves_by_text("03 4915100001", "0492123401 "));
    for (size_t i = 0; i < sizeof drop / sizeof *drop; i++)
        HOLDS(leaves_by_text(drop[i], ""));
    for (size_t i = 0; i < sizeof mark / sizeof *mark; i++)
        HOLDS(leaves_by_text(mark[i], "0492123401? "));

    uint8_t string[ROOM];
    size_t count = pack("03 4915100001", string);
    HOLDS(leaves(string, count - 1, "0492123401? ")); /* a digit is missing, and bits are left over */
    string[count - 1] |= 0x80;
    HOLDS(leaves(string, count, "0492123401? ")); /* unused bits */
    HOLDS(leaves((const uint8_t *)"\x36\x19", 2, "") && leaves((const uint8_t *)"\x36\x59", 2, "0492123401? "));
    for (size_t length = 0; length <= ROOM; length++) {
        memset(string, (int)length, sizeof string);
        HOLDS(leaves(string, length, "0492123401? "));
    }
}

static void late_replies(void)
{
    fresh(0);
    HOLDS(refused(reply(0, "62"), 22) && refused(reply(1, "62"), 22)); /* no question yet */
    fresh_with_three(0);
    HOLDS(asks(notice(NOTICE), 1, 1, "0492123401"));
    for (unsigned invoke = 0; invoke <= 255; invoke++)
        HOLDS(invoke == 1 || refused(reply((uint8_t)invoke, "62"), 22));
    HOLDS(asks(notice("##214*0492123501*88*4915100002*#"), 1, 2, "0492123501")); /* the open question is dropped */
    HOLDS(refused(reply(1, "62"), 22) && stores("0492123401 0492123501! 0492123402"));
    HOLDS(asks(notice(NOTICE), 1, 3, "0492123401") && asks(reply(3, "41"), 0, 4, "0492123402"));
    HOLDS(asks(notice(NOTICE), 1, 5, "0492123401") && stores("0492123401?! 0492123501 0492123402!")); /* asked again */
    HOLDS(refused(reply(3, "62"), 22) && refused(reply(4, "62"), 22));
    HOLDS(asks(reply(5, "62"), 0, 6, "0492123402") && refused(reply(5, "62"), 22)); /* twice */
    HOLDS(is_over(reply(6, "62"), 0) && stores("0492123501"));
}

static void invoke_numbers(void)
{
    fresh_with_three(1);
    radio.invoke = 254;
    HOLDS(asks(notice(NOTICE), 1, 255, "0492123401"));
    HOLDS(asks(reply(255, "41"), 0, 0, "0492123501"));
    HOLDS(refused(reply(255, "41"), 22) && asks(reply(0, "41"), 0, 1, "0492123402"));
    HOLDS(is_over(reply(1, "41"), 0) && radio.invoke == 1);
    radio.invoke = 255;
    HOLDS(asks(notice(NOTICE), 1, 0, "0492123401"));
    for (unsigned n = 1; n <= 255; n++) /* a question that 255 others dropped is not answered */
        HOLDS(asks(notice(NOTICE), 1, (uint8_t)n, "0492123401") && refused(reply((uint8_t)(n - 1), "62"), 22));
}

enum { RULES = 16 };

/* Breaks one rule of a sound radio: F still to be asked, G, the number behind F marked. */
static void damage(int rule)
{
    fresh_with_three(0);
    radio.entries[0].to_ask = 1;
    radio.entries[2].unsure = 1;
    switch (rule) {
    case 0: radio.own = 0; break;
    case 1: radio.own = 4915100001; break;
    case 2: radio.count = 17; break;
    case 3: radio.count = SIZE_MAX; break;
    case 4: radio.count = ((size_t)1 << 32) + 3; break;
    case 5: radio.count = 2; break;
    case 6: radio.count = 4; break;
    case 7: radio.entries[1].number = 99999; break;
    case 8: radio.entries[2].number = F; break;
    case 9: radio.entries[1].unsure = 2; break;
    case 10: radio.entries[1].to_ask = 0x81; break;
    case 11: radio.hand_held = 2; break;
    case 12: radio.entries[15].number = F + 5; break;
    case 13: radio.entries[3].unsure = 1; break;
    case 14: radio.entries[15].to_ask = 1; break;
    default: radio.entries[1].to_ask = 1; break; /* a second root in a cab radio */
    }
}

/* Refused first, and not repaired. */
static void unsound_radios(void)
{
    uint8_t string[ROOM];
    size_t count = pack(NOTICE, string);
    for (int rule = 0; rule < RULES; rule++) {
        damage(rule);
        HOLDS(refused(store(F + 3), 24) && refused(store(F), 24) && refused(store(0), 24));
        HOLDS(refused(notice(NOTICE), 24) && refused(notice("62"), 24));
        HOLDS(refused(reply(0, "03 4915100001"), 24) && refused(reply(7, ""), 24));
        lend();
        HOLDS(refused(ffn_radio_notice(&radio, string, count, question, 159), 24));
        HOLDS(refused(ffn_radio_reply(&radio, 7, string, count, question, 0), 24));
    }
    damage(RULES - 1);
    radio.hand_held = 1; /* which asks about all roots */
    HOLDS(asks(reply(0, "62"), 0, 1, "0492123501"));
}

/* The buffer comes before the string and the invoke number, whether or not a question follows. */
static void short_buffers(void)
{
    const size_t lengths[] = {0, 18, 80, 159};
    uint8_t string[ROOM];
    size_t count = pack(NOTICE, string);
    for (int open = 0; open <= 2; open++) {
        if (open == 0)
            fresh(0);
        else
            fresh_with_three(0);
        if (open == 2)
            notice(NOTICE);
        lend();
        for (size_t i = 0; i < sizeof lengths / sizeof *lengths; i++) {
            HOLDS(refused(ffn_radio_notice(&radio, string, count, question, lengths[i]), 1));
            HOLDS(refused(ffn_radio_notice(&radio, string, 0, question, lengths[i]), 1));
            HOLDS(refused(ffn_radio_reply(&radio, radio.invoke, string, count, question, lengths[i]), 1));
            HOLDS(refused(ffn_radio_reply(&radio, 77, string, 0, question, lengths[i]), 1));
        }
    }
    lend();
    HOLDS(asks(ffn_radio_reply(&radio, 1, string, 0, question, ROOM), 0, 2, "0492123402")); /* a longer one */
}

/* The node's table: F and 02 are A's, 03 is free, 04 is C's, 05 is not there; G is C's. */
enum { TABLE = 5 * ROW };
static uint64_t table[TABLE], figures[3];

static void fill_table(void)
{
    const uint64_t rows[TABLE] = {F, A, 0, 0, 0, 0, 0, F + 1, A, 0, 0, 0, 0, 0, F + 2, 0, 0, 0, 0, 0, 0,
        F + 3, C, 0, 0, 0, 0, 0, G, C, 0, 0, 0, 0, 0};
    memcpy(table, rows, sizeof rows);
    struct ffn_figures n = ffn_recount(table, TABLE);
    figures[0] = n.held;
    figures[1] = n.waiting;
    figures[2] = n.in_flight;
}

/* B forces A off F, or the terminal does, and the node sends the notice. */
static struct ffn_radio_doing force_off(const uint64_t list[6], int at_terminal)
{
    uint8_t string[ROOM], buffer[80];
    fill_table();
    size_t count = pack("##214*0492123401*88*4915100001*#", string);
    struct ffn_answer erased = at_terminal
        ? ffn_terminal_erasure(table, TABLE, figures, 3, buffer, sizeof buffer, F, A)
        : ffn_request(table, TABLE, figures, 3, list, 6, buffer, sizeof buffer, B, 0x0F, string, count);
    HOLDS(erased.class_ == FFN_OUTCOME && erased.number == 2 && table[4] == (at_terminal ? 0 : B));
    struct ffn_answer sent = ffn_sending(table, TABLE, figures, 3, buffer, sizeof buffer, F, 60, 100);
    HOLDS(sent.class_ == FFN_SENT && sent.value == A && sent.count == (at_terminal ? 20 : 28));
    lend();
    return ffn_radio_notice(&radio, buffer, sent.count, question, QUESTION_ROOM);
}

/* A whole round: each question goes to the node, each reply to the radio. How many there were. */
static int round_with_node(const uint64_t list[6], int at_terminal)
{
    uint8_t answer[80];
    int questions = 0;
    struct ffn_radio_doing d = force_off(list, at_terminal);
    HOLDS(d.refusal == 0 && d.respond == 1);
    for (; d.octets != 0; questions++) {
        struct ffn_answer a = ffn_request(table, TABLE, figures, 3, list, 6, answer, sizeof answer, radio.own, 0x0F, question, d.octets);
        HOLDS(a.class_ == FFN_OUTCOME);
        lend();
        d = ffn_radio_reply(&radio, d.invoke, answer, a.count, question, QUESTION_ROOM);
        HOLDS(d.refusal == 0 && d.respond == 0);
    }
    return questions;
}

static void rounds_with_the_node(int at_terminal)
{
    const uint64_t list[6] = {A, 1, B, 3, C, 1}, without[6] = {A, 0, B, 3, C, 1};
    const uint64_t stored[] = {F + 4, F, G, F + 1, F + 2, F + 3};
    for (int turn = 0; turn <= 2; turn++) {
        fresh(turn == 1);
        for (size_t i = 0; i < sizeof stored / sizeof *stored; i++)
            store(stored[i]);
        if (turn == 0) /* a cab radio: A's are kept, the unknown one is marked, G is not asked */
            HOLDS(round_with_node(list, at_terminal) == 5 && stores("0492123405? 0492123501 0492123402"));
        else if (turn == 1) /* a hand-held: G too, which is C's */
            HOLDS(round_with_node(list, at_terminal) == 6 && stores("0492123405? 0492123402"));
        else /* A has no Follow Me: each reply is 42 */
            HOLDS(round_with_node(without, at_terminal) == 5
                && stores("0492123405? 0492123401? 0492123501 0492123402? 0492123403? 0492123404?"));
    }
}

int main(void)
{
    storing();
    noticing();
    no_notices();
    from_the_terminal();
    a_cab_radio_asks_one_root();
    a_hand_held_asks_all();
    replies();
    late_replies();
    invoke_numbers();
    unsound_radios();
    short_buffers();
    rounds_with_the_node(0);
    rounds_with_the_node(1);
    return all_hold();
}
