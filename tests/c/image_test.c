/* Images of table and list, written and read back through the C library. Ends at the first fact that does not hold, with its line. */
#include <string.h>

#include "facts.h"
#include "ffn.h"

/* The layout that the library was compiled with. */
_Static_assert(sizeof(struct ffn_image_read) == 24, "image read");
_Static_assert(offsetof(struct ffn_image_read, number) == 4, "number");
_Static_assert(offsetof(struct ffn_image_read, numbers) == 8, "numbers");
_Static_assert(offsetof(struct ffn_image_read, subscribers) == 16, "subscribers");

/* Words of a row, octets of a word and of the trailer; the arrays have room for one row more than the most, and for something behind. */
enum { SUBSCRIBER = 2, FIGURES = 3, WORD = 8, TRAILER = 24, MOST_NUMBERS = 1024, MOST_SUBSCRIBERS = 4096, BEHIND = 5 };
enum { TABLE_ROOM = ROW * (MOST_NUMBERS + 1) + BEHIND, LIST_ROOM = SUBSCRIBER * (MOST_SUBSCRIBERS + 1) + BEHIND };
enum { FIGURES_ROOM = FIGURES + BEHIND, IMAGE_ROOM = WORD * (TABLE_ROOM + LIST_ROOM) + TRAILER + BEHIND };

static const uint64_t A = 14915100001, B = 14915100002, F = 10492123401;

/* F, open and free, and A, who has Follow Me: 10492123401 is 271611909 in base 16, 14915100001 is 379025D61, the distance is 72. */
static const uint8_t BY_HAND[96] = {
    0x09, 0x19, 0x61, 0x71, 0x02, 0, 0, 0,
    0, 0, 0, 0, 0, 0, 0, 0,
    0, 0, 0, 0, 0, 0, 0, 0,
    0, 0, 0, 0, 0, 0, 0, 0,
    0, 0, 0, 0, 0, 0, 0, 0,
    0, 0, 0, 0, 0, 0, 0, 0,
    0, 0, 0, 0, 0, 0, 0, 0,
    0x61, 0x5D, 0x02, 0x79, 0x03, 0, 0, 0,
    1, 0, 0, 0, 0, 0, 0, 0,
    1, 0, 0, 0, 0, 0, 0, 0,
    1, 0, 0, 0, 0, 0, 0, 0,
    72, 0, 0, 0, 0, 0, 0, 0};

/* Contents with their counts of words, their figures, and their image. */
static uint64_t table[TABLE_ROOM], list[LIST_ROOM], figures[FIGURES_ROOM];
static size_t table_words, list_words;
static uint8_t image[IMAGE_ROOM], expected[IMAGE_ROOM];

/* What a reading is lent. */
static uint64_t table_read[TABLE_ROOM], list_read[LIST_ROOM], figures_read[FIGURES_ROOM];

static void recount(void)
{
    struct ffn_figures n = ffn_recount(table, table_words);
    figures[0] = n.held;
    figures[1] = n.waiting;
    figures[2] = n.in_flight;
}

/* Numbers, every second one with a notice, every fourth with one from the terminal, every fifth closed, and subscribers. */
static void set_contents(size_t numbers, size_t subscribers)
{
    table_words = ROW * numbers;
    list_words = SUBSCRIBER * subscribers;
    memset(table, 0, sizeof table);
    for (size_t i = 0; i < numbers; i++) {
        uint64_t *row = table + ROW * i;
        row[0] = F + 3 * i;
        row[1] = i % 3 == 0 ? 0 : A + i;
        if (i % 2 == 1) {
            row[2] = 1 + i / 2 % 12;
            row[3] = A;
            row[4] = i % 4 == 1 ? B : 0;
            row[5] = row[2] % 2 == 1 && row[2] > 1 ? 4294967295 - i : 0;
        }
        row[6] = i % 5 == 4; /* closed */
    }
    for (size_t i = 0; i < subscribers; i++) {
        list[SUBSCRIBER * i] = A + 7 * i;
        list[SUBSCRIBER * i + 1] = i % 4;
    }
    recount();
}

/* F, open and free, and A, who has Follow Me. */
static void set_by_hand(void)
{
    set_contents(1, 1);
    list[1] = 1;
}

static size_t put_words(uint8_t *out, size_t place, const uint64_t *words, size_t count)
{
    for (size_t i = 0; i < count; i++)
        for (size_t octet = 0; octet < WORD; octet++)
            out[place + WORD * i + octet] = (uint8_t)(words[i] >> 8 * octet);
    return place + WORD * count;
}

/* The image of the contents, whatever they are, with these counts and a distance that is right. Its length. */
static size_t put_image(uint8_t *out, uint64_t numbers, uint64_t subscribers)
{
    size_t length = put_words(out, 0, table, table_words);
    length = put_words(out, length, list, list_words);
    const uint64_t trailer[3] = {numbers, subscribers, length};
    return put_words(out, length, trailer, 3);
}

static int is(struct ffn_answer a, uint32_t class_, uint32_t number, size_t count)
{
    return a.class_ == class_ && a.number == number && a.count == count && a.value == 0;
}

static struct ffn_answer write_into(size_t length)
{
    fill(image, sizeof image);
    return ffn_write_image(table, table_words, figures, FIGURES, list, list_words, image, length);
}

/* The contents are written as their image, and the rest of the buffer stays. */
static int is_written(size_t length)
{
    size_t size = put_image(expected, table_words / ROW, list_words / SUBSCRIBER);
    return is(write_into(length), FFN_WRITTEN, 0, size) && begins_with(image, sizeof image, expected, size);
}

static int not_written(struct ffn_answer a, uint32_t number)
{
    return is(a, FFN_REFUSAL, number, 0) && untouched(image, 0, sizeof image);
}

static struct ffn_image_read read_into(const uint8_t *octets, size_t length, size_t table_room, size_t list_room, size_t figures_room)
{
    fill(table_read, sizeof table_read);
    fill(list_read, sizeof list_read);
    fill(figures_read, sizeof figures_read);
    return ffn_read_image(octets, length, table_read, table_room, list_read, list_room, figures_read, figures_room);
}

static struct ffn_image_read read_whole(const uint8_t *octets, size_t length)
{
    return read_into(octets, length, TABLE_ROOM, LIST_ROOM, FIGURES_ROOM);
}

/* The contents are read, with their figures, and the rest of each room stays. */
static int restored(struct ffn_image_read r)
{
    return r.class_ == FFN_READ && r.number == 0 && r.numbers == table_words / ROW && r.subscribers == list_words / SUBSCRIBER
        && begins_with(table_read, sizeof table_read, table, WORD * table_words)
        && begins_with(list_read, sizeof list_read, list, WORD * list_words)
        && begins_with(figures_read, sizeof figures_read, figures, WORD * FIGURES);
}

static int refused(struct ffn_image_read r, uint32_t number)
{
    return r.class_ == FFN_REFUSAL && r.number == number && r.numbers == 0 && r.subscribers == 0
        && untouched(table_read, 0, sizeof table_read) && untouched(list_read, 0, sizeof list_read)
        && untouched(figures_read, 0, sizeof figures_read);
}

/* Refused whatever the rooms are. */
static int refused_before_rooms(const uint8_t *octets, size_t length, uint32_t number)
{
    return refused(read_whole(octets, length), number) && refused(read_into(octets, length, 0, 0, 0), number);
}

static void nothing(void)
{
    const uint8_t zeros[TRAILER] = {0};
    set_contents(0, 0);
    HOLDS(is_written(TRAILER) && memcmp(image, zeros, TRAILER) == 0 && is_written(IMAGE_ROOM));
    HOLDS(not_written(write_into(TRAILER - 1), 33));
    HOLDS(restored(read_whole(zeros, TRAILER)) && restored(read_into(zeros, TRAILER, 0, 0, FIGURES)));
    HOLDS(refused(read_into(zeros, TRAILER, 0, 0, FIGURES - 1), 33));
}

static void by_hand(void)
{
    set_by_hand();
    HOLDS(is(write_into(sizeof BY_HAND), FFN_WRITTEN, 0, 96) && begins_with(image, sizeof image, BY_HAND, 96));
    HOLDS(is_written(96) && is_written(97) && is_written(IMAGE_ROOM));
    HOLDS(restored(read_whole(BY_HAND, 96)) && restored(read_into(BY_HAND, 96, ROW, SUBSCRIBER, FIGURES)));
}

static void full_contents(void)
{
    set_contents(MOST_NUMBERS, MOST_SUBSCRIBERS);
    size_t size = WORD * (table_words + list_words) + TRAILER;
    HOLDS(size == 122904 && is_written(size) && restored(read_whole(image, size)));
    HOLDS(restored(read_into(expected, size, table_words, list_words, FIGURES)));
    HOLDS(not_written(write_into(size - 1), 33));
    HOLDS(refused(read_into(expected, size, table_words - 1, list_words, FIGURES), 33));
    HOLDS(refused(read_into(expected, size, table_words, list_words - 1, FIGURES), 33));
}

static void round_trips(void)
{
    for (size_t numbers = 0; numbers <= 26; numbers++)
        for (size_t subscribers = 0; subscribers <= 5; subscribers++) {
            set_contents(numbers, subscribers);
            size_t size = WORD * (table_words + list_words) + TRAILER;
            HOLDS(is_written(size) && restored(read_into(image, size, table_words, list_words, FIGURES)));
        }
}

/* Each refusal of writing with those behind it, then without it. */
static void writing_checks(void)
{
    set_by_hand();
    table[1] = 7;
    figures[0] = 1;
    list[1] = 4;
    HOLDS(not_written(write_into(0), 8) && not_written(write_into(96), 8));
    list[1] = 1;
    HOLDS(not_written(write_into(0), 2) && not_written(write_into(96), 2));
    table[1] = 0;
    HOLDS(not_written(write_into(0), 10) && not_written(write_into(96), 10));
    figures[0] = 0;
    for (size_t length = 0; length < 96; length++)
        HOLDS(not_written(write_into(length), 33));
    HOLDS(is_written(96));

    for (size_t words = 0; words <= 4; words++) { /* figures of another length */
        fill(image, sizeof image);
        figures[3] = 0;
        struct ffn_answer a = ffn_write_image(table, table_words, figures, words, list, list_words, image, 96);
        HOLDS(words == FIGURES ? is(a, FFN_WRITTEN, 0, 96) : not_written(a, 10));
    }
    for (size_t i = 0; i < FIGURES; i++) { /* and others */
        figures[i] = (uint64_t)1 << 32;
        HOLDS(not_written(write_into(96), 10));
        figures[i] = 0;
    }

    set_contents(2, 2); /* whole rows, ascending, and not too many */
    fill(image, sizeof image);
    HOLDS(not_written(ffn_write_image(table, ROW + 1, figures, FIGURES, list, list_words, image, IMAGE_ROOM), 2));
    HOLDS(not_written(ffn_write_image(table, table_words, figures, FIGURES, list, 3, image, IMAGE_ROOM), 8));
    table[ROW] = table[0];
    HOLDS(not_written(write_into(IMAGE_ROOM), 2));
    list[SUBSCRIBER] = list[0];
    HOLDS(not_written(write_into(IMAGE_ROOM), 8));
    set_contents(MOST_NUMBERS + 1, 0);
    HOLDS(not_written(write_into(IMAGE_ROOM), 2));
    set_contents(0, MOST_SUBSCRIBERS + 1);
    HOLDS(not_written(write_into(IMAGE_ROOM), 8));
}

static void short_images(void)
{
    uint8_t zeros[TRAILER] = {0};
    for (size_t length = 0; length < TRAILER; length++) {
        HOLDS(refused_before_rooms(zeros, length, 30));
        HOLDS(refused_before_rooms(BY_HAND, length, 30) && refused_before_rooms(BY_HAND + 96 - length, length, 30));
    }
    HOLDS(refused_before_rooms(BY_HAND + 72, TRAILER, 31)); /* the trailer alone */
}

/* The image by hand with this distance. */
static void other_distance(uint64_t distance, uint8_t octets[96])
{
    memcpy(octets, BY_HAND, 96);
    put_words(octets, 88, &distance, 1);
}

static void distances(void)
{
    const uint64_t others[] = {0, 16, 56, 71, 73, 96, 72 + ((uint64_t)1 << 8), 72 + ((uint64_t)1 << 32), 72 + ((uint64_t)1 << 63), UINT64_MAX};
    uint8_t octets[97];
    for (size_t i = 0; i < sizeof others / sizeof *others; i++) {
        other_distance(others[i], octets);
        HOLDS(refused_before_rooms(octets, 96, 31));
        memset(octets, 0xFF, 88); /* and counts that are over their limits */
        HOLDS(refused_before_rooms(octets, 96, 31));
    }
    for (size_t length = TRAILER; length < 96; length++) /* cut in front */
        HOLDS(refused_before_rooms(BY_HAND + 96 - length, length, 31));
    memcpy(octets + 1, BY_HAND, 96); /* an octet in front, and one behind */
    octets[0] = 0;
    HOLDS(refused_before_rooms(octets, 97, 31));
    memcpy(octets, BY_HAND, 96);
    octets[96] = 0;
    HOLDS(refused_before_rooms(octets, 97, 31));
}

/* Contents with these counts in the trailer are refused before rooms and contents. */
static int counts_refused(uint64_t numbers, uint64_t subscribers, uint32_t number)
{
    size_t length = put_image(image, numbers, subscribers);
    int sound = refused_before_rooms(image, length, number);
    memset(image, 0xFF, length - TRAILER); /* rows that are not sound */
    return sound && refused_before_rooms(image, length, number);
}

static void counts(void)
{
    set_contents(MOST_NUMBERS + 1, 0);
    HOLDS(counts_refused(MOST_NUMBERS + 1, 0, 32));
    set_contents(0, MOST_SUBSCRIBERS + 1);
    HOLDS(counts_refused(0, MOST_SUBSCRIBERS + 1, 32));
    set_by_hand();
    HOLDS(counts_refused(MOST_NUMBERS + 1, MOST_SUBSCRIBERS + 1, 32) && counts_refused(UINT64_MAX, UINT64_MAX, 32));
    HOLDS(counts_refused(MOST_NUMBERS + 1, 1, 32) && counts_refused(1, MOST_SUBSCRIBERS + 1, 32));
    HOLDS(counts_refused(MOST_NUMBERS, 1, 34) && counts_refused(1, MOST_SUBSCRIBERS, 34)); /* within the limits */
    for (unsigned bit = 16; bit < 64; bit++) { /* as many more as wrap, in the count or in the octets they take */
        uint64_t more = (uint64_t)1 << bit;
        HOLDS(counts_refused(1 + more, 1, 32) && counts_refused(1, 1 + more, 32) && counts_refused(1 + more, 1 + more, 32));
    }
    HOLDS(counts_refused(0, 0, 34) && counts_refused(0, 1, 34) && counts_refused(1, 0, 34));
    HOLDS(counts_refused(2, 1, 34) && counts_refused(1, 2, 34) && counts_refused(MOST_NUMBERS, MOST_SUBSCRIBERS, 34));

    for (size_t more = 1; more < WORD; more++) { /* parts of a word */
        const uint64_t trailer[3] = {1, 1, 72 + more};
        memcpy(image, BY_HAND, 72);
        memset(image + 72, 0, more);
        size_t length = put_words(image, 72 + more, trailer, 3);
        HOLDS(refused_before_rooms(image, length, 34));
    }
    set_contents(SUBSCRIBER, 0); /* other rows fill the same distance */
    HOLDS(refused(read_whole(image, put_image(image, 0, ROW)), 8));
    set_contents(0, ROW);
    HOLDS(refused(read_whole(image, put_image(image, SUBSCRIBER, 0)), 2));
}

/* Every room up to two words more than is needed. */
static void rooms(void)
{
    set_by_hand();
    for (size_t t = 0; t <= ROW + 2; t++)
        for (size_t l = 0; l <= SUBSCRIBER + 2; l++)
            for (size_t f = 0; f <= FIGURES + 2; f++) {
                int fits = t >= ROW && l >= SUBSCRIBER && f >= FIGURES;
                struct ffn_image_read r = read_into(BY_HAND, 96, t, l, f);
                HOLDS(fits ? restored(r) : refused(r, 33));
                memcpy(image, BY_HAND, 96);
                image[8] = 7; /* a holder that is no number: behind the rooms */
                HOLDS(refused(read_into(image, 96, t, l, f), fits ? 2 : 33));
            }
}

/* The contents as they stand are read back refused. */
static int contents_refused(uint32_t number)
{
    return refused(read_whole(image, put_image(image, table_words / ROW, list_words / SUBSCRIBER)), number);
}

static void unsound_contents(void)
{
    set_contents(4, 3);
    HOLDS(!contents_refused(2) && restored(read_whole(image, put_image(image, 4, 3))));
    list[5] = 4; /* flags */
    HOLDS(contents_refused(8));
    table[3 * ROW + 2] = 13; /* a phase above the last */
    HOLDS(contents_refused(2));
    set_contents(4, 3);
    table[3 * ROW] = table[2 * ROW];
    HOLDS(contents_refused(2));
    set_contents(4, 3);
    list[4] = list[2];
    HOLDS(contents_refused(8));
    set_contents(4, 3);
    table[1] = 4915100001; /* digits without the 1 in front */
    HOLDS(contents_refused(2));
    list[0] = 4915100001;
    HOLDS(contents_refused(2));
    table[1] = A;
    HOLDS(contents_refused(8));
}

/* A notice may name no supervisor, but always an addressee, who is not the supervisor. */
static void supervisors(void)
{
    for (uint64_t phase = 1; phase <= 12; phase++) {
        set_contents(4, 1);
        uint64_t *row = table + ROW;
        row[2] = phase;
        row[4] = 0;
        row[5] = 0;
        recount();
        size_t size = put_image(expected, 4, 1);
        HOLDS(is_written(size) && restored(read_whole(image, size)));
        row[3] = 0; /* to nobody */
        HOLDS(contents_refused(2) && not_written(write_into(IMAGE_ROOM), 2));
        row[4] = B;
        HOLDS(contents_refused(2) && not_written(write_into(IMAGE_ROOM), 2));
        row[3] = B; /* from her who is told */
        HOLDS(contents_refused(2) && not_written(write_into(IMAGE_ROOM), 2));
    }
}

/* The seventh word of a row is 0 or 1. */
static void seventh_words(void)
{
    set_contents(3, 1);
    for (size_t i = 0; i < 3; i++) {
        uint64_t *closed = table + ROW * i + 6;
        *closed = 1;
        size_t size = put_image(expected, 3, 1);
        HOLDS(is_written(size) && restored(read_whole(image, size)));
        *closed = 2;
        HOLDS(contents_refused(2) && not_written(write_into(IMAGE_ROOM), 2));
        *closed = (uint64_t)1 << 32;
        HOLDS(contents_refused(2) && not_written(write_into(IMAGE_ROOM), 2));
        *closed = 0;
    }
}

/* Images from before rows had seven words: those with numbers do not fill the distance. */
static void old_images(void)
{
    enum { OLD_ROW = 6 };
    for (size_t numbers = 0; numbers <= 14; numbers++) {
        set_contents(numbers, 3);
        for (size_t i = 0; i < numbers; i++)
            memmove(table + OLD_ROW * i, table + ROW * i, OLD_ROW * WORD);
        table_words = OLD_ROW * numbers;
        size_t length = put_image(image, numbers, 3);
        HOLDS(numbers > 0 ? refused_before_rooms(image, length, 34) : restored(read_whole(image, length)));
    }
}

/* One bit of a small image changed: refused, or the image of other contents. */
static void single_bits(void)
{
    static uint64_t old_table[TABLE_ROOM], old_list[LIST_ROOM];
    set_contents(6, 2);
    size_t size = put_image(expected, 6, 2), others = 0;
    memcpy(old_table, table, sizeof table);
    memcpy(old_list, list, sizeof list);
    for (size_t bit = 0; bit < 8 * size; bit++) {
        static uint8_t changed[IMAGE_ROOM];
        memcpy(changed, expected, size);
        changed[bit / 8] ^= (uint8_t)(1 << bit % 8);
        struct ffn_image_read r = read_whole(changed, size);
        if (r.class_ == FFN_REFUSAL) {
            HOLDS(refused(r, r.number));
            continue;
        }
        others += 1;
        memcpy(table, table_read, WORD * table_words);
        memcpy(list, list_read, WORD * list_words);
        recount();
        HOLDS(bit / 8 < size - TRAILER && restored(r)); /* with the figures of what was read */
        HOLDS(memcmp(table, old_table, sizeof table) != 0 || memcmp(list, old_list, sizeof list) != 0);
        HOLDS(is(write_into(size), FFN_WRITTEN, 0, size) && memcmp(image, changed, size) == 0);
        memcpy(table, old_table, sizeof table);
        memcpy(list, old_list, sizeof list);
    }
    HOLDS(others > 100);
}

int main(void)
{
    nothing();
    by_hand();
    full_contents();
    round_trips();
    writing_checks();
    short_images();
    distances();
    counts();
    rooms();
    unsound_contents();
    supervisors();
    seventh_words();
    old_images();
    single_bits();
    return all_hold();
}
