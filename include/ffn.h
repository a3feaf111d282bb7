/*
 * The Follow Me node as a C library: libffn_c.a.
 *
 * Every function works on memory that the caller lends for the one call, keeps
 * nothing, and allocates nothing. It returns one struct by value. Each is
 * proved, for every input, to return and to leave in all lent memory exactly
 * what documents 01 and 02 say; no input is undefined. What a caller owes is only
 * what C itself asks:
 *  - a pointer is not null and points at as many elements as its length says,
 *    also where that length is 0 (the pointer is not followed then);
 *  - words are aligned as uint64_t;
 *  - memory that is lent for writing overlaps no other memory of the call, and
 *    no other thread uses lent memory during the call.
 *
 * Numbers. A functional number and an MSISDN are separate numberings; each has
 * 5 to 15 decimal digits, and leading zeros count. A number is passed in stored
 * form: its digits with a 1 put in front, read as a decimal. 0492123401 is
 * 10492123401. 0 means nobody.
 *
 * Table. Seven words a number, at most 1,024 numbers, strictly ascending by the
 * first word: functional number; holder, or 0; phase; the notice's addressee;
 * supervisor, or 0 where the holder was forced off at the node's terminal; second
 * of the last failure; 0 where the number is open, 1 where it is closed. A closed
 * number is not registered; all else goes on, and requests, erasures at the
 * terminal, sendings and results leave the word.
 *
 * Figures. Three words beside the table: numbers held (with a holder), notices
 * waiting (in an odd phase), notices in flight (in an even phase above 0). A
 * caller recounts them once at the start, by ffn_recount, or has them from the
 * image that she reads; after that she only lends the words with the table. Each
 * request, erasure at the terminal, sending and result that is not refused leaves
 * them equal to a recount of the table; closing, compacting and adding change none
 * of them. Words that differ from it, or of another length than three, are refused
 * 10.
 * List. Two words a subscriber, at most 4,096, strictly ascending: MSISDN;
 * flags 0 to 3 (1 has Follow Me, 2 supervisor).
 *
 * Frames. A Register holds a request, a Release Complete its answer: the messages
 * between base station side and node (document 000, 4.2.1 and 4.2.2). Lengths of
 * parts are definite and in their shortest form; the facility element's own is
 * one plain octet. Register is 0x7B, as document 000 has it. TS 24.080 has 0x3B;
 * the two differ in a bit that TS 24.008 uses, with the one above it, as the
 * sequence number of a mobile's messages. A caller whose stack leaves it in makes
 * the message's second octet (type & 0x3F) | 0x40 before she lends it, and one
 * who wants 0x3B written clears 0x40 in what was written.
 *
 * Images. Table and list as one run of octets, to move a node to new hardware:
 * the rows, table then list, each word as eight octets, the low one first; then a
 * trailer of three such words: the number of table rows, of list rows, and the
 * distance in octets from the trailer's start back to the first row. Contents
 * have one image, and an image has one reading. That of nothing is 24 zeros, that
 * of 1,024 numbers and 4,096 subscribers has 122,904 octets. One that was written
 * before rows had their seventh word is refused 34, unless it has no numbers.
 *
 * The terminal. Staff at the node clear a number without a subscription, by
 * ffn_terminal_erasure, which is lent no list. They name its holder exactly, as a
 * supervisor does; the notice to the holder then leaves the supervisor's place
 * blank.
 *
 * Text messages. A message centre asks ffn_routing which MSISDN stands behind a
 * functional number. The number's first three digits are its international code;
 * one of another network is answered by that code alone. It is lent the table and
 * characters, for reading only, and takes no figures and no list.
 *
 * Withdrawn numbers. ffn_close closes a number, which keeps its holder and its
 * notice until they run out. ffn_compact then removes its row, and ffn_add uses
 * the row again. Both are lent a buffer of words with a table at its front, and
 * the count of rows in use, and return the count; the buffer need not be whole
 * rows.
 *
 * Refusals and errors touch no memory; only a framed request that is in error or
 * rejected writes the frame that says so. What a function writes stands at the
 * start of the buffer; everything beyond its count stays as it was, but that
 * ffn_compact makes the words that it frees 0.
 */
#ifndef FFN_H
#define FFN_H

#include <stddef.h>
#include <stdint.h>

#ifdef __cplusplus
extern "C" {
#endif

/* The classes of an answer. Refusals, errors and outcomes are numbered apart. */
enum {
    FFN_WRITTEN = 0,  /* count: the octets or characters that were written */
    FFN_REFUSAL = 1,  /* number: 1 to 11, 30 to 34 or 50 to 52, see below */
    FFN_ERROR = 2,    /* number: 35, 36 or 71, the codes of TS 29.002 */
    FFN_OUTCOME = 3,  /* number: the outcome; count: the reply's or the frame's octets; value: of 03 the holder's MSISDN, otherwise 0 */
    FFN_SENT = 4,     /* count: the notice's octets; value: the addressee's MSISDN */
    FFN_RESULT = 5,   /* number: FFN_DELIVERED, FFN_DROPPED or FFN_AGAIN */
    FFN_FOUND = 6,    /* value: the lowest due functional number */
    FFN_NONE_DUE = 7, /* no notice is due */
    FFN_READ = 8,     /* of the readers: the string, the message or the image reads */
    /* Of frames. */
    FFN_RETURN_ERROR = 9, /* number: the error's code; count: the frame's octets */
    FFN_REJECT = 10,      /* number: the problem; count: the frame's octets */
    /* Of a recount. */
    FFN_COUNTED = 11, /* held, waiting, in_flight: the figures */
    /* Of withdrawn numbers. */
    FFN_CLOSED = 12, /* the number is closed */
    FFN_ROWS = 13,   /* count: the rows now in use; value: of ffn_compact how many went, otherwise 0 */
    /* Of a routing. */
    FFN_ASK_NETWORK = 14, /* code: the international code of the network to ask */
    FFN_ROUTED = 15       /* msisdn: where the message goes; subaddress: with which subaddress */
};

/* The problems with which a framed request is rejected. */
enum {
    FFN_UNRECOGNIZED_OPERATION = 1, /* the operation is missing, unreadable or unknown */
    FFN_MISTYPED_PARAMETER = 2      /* something behind the operation is wrong */
};

/* What ffn_result returns as its number. */
enum {
    FFN_DELIVERED = 0, /* the notice is cleared, it was delivered */
    FFN_DROPPED = 1,   /* the notice is cleared, it was not delivered */
    FFN_AGAIN = 2      /* the notice waits to be sent again */
};

/* Operations of a request. */
enum {
    FFN_REGISTER = 0,   /* ** */
    FFN_ERASE = 1,      /* ## */
    FFN_INTERROGATE = 2 /* *# */
};

/*
 * Refusals:
 * 1 a buffer is too short; 2 the table is unsound; 3 the kind is above 5;
 * 4 the notice is not in the phase that the call needs; 5 it is not due;
 * 6 the delay is neither 0 nor 60 to 600 seconds; 7 the functional number is
 * malformed or not in the table, or the holder named is malformed; 8 the list is
 * unsound; 9 the fields break the string's rules, a character is not one that the
 * packer takes, unused bits are not 0, or the transaction identifier is above 15;
 * 10 the figures differ from a recount of the table; 11 the message is wrong
 * anywhere up to and with its invoke number, or is no Release Complete that the
 * node could have written.
 * Of images: 30 the image has under 24 octets; 31 the distance is not the image's
 * length less 24; 32 a count of rows is over its limit, 1,024 or 4,096; 33 a
 * buffer is too small for the image, or for what it holds; 34 the rows do not
 * fill the distance.
 * Of withdrawn numbers: 50 the table has 1,024 rows, or the buffer has no room for
 * one more; 51 the functional number is already in the table; 52 it is not in the
 * table.
 * Errors: 35 the requester is no MSISDN, or the string has 0 octets; 36 the
 * string does not read, or a routing's code or digits are malformed; 71 the data coding scheme is not 0x0F.
 * Outcomes: 01 registered, 02 erased, 03 interrogated; 11 a crew's request to
 * register, 12 one to erase, whatever became of its numbers; 22, 41, 42, 61, 62,
 * 63, 67, 68 as in document 01's table (63 not for a plain erasure by the
 * subscriber whose own digits the number has); 64 a registration of a closed
 * number, directly after 67, also by its holder.
 */

/* An answer. A field that its class does not name is 0. */
struct ffn_answer {
    uint32_t class_; /* any but FFN_READ, FFN_COUNTED, FFN_ASK_NETWORK and FFN_ROUTED (without its underscore a word of C++) */
    uint32_t number;
    size_t count;
    uint64_t value;
};

/* What a packed request string reads as. With FFN_ERROR all but number is 0. */
struct ffn_request_read {
    uint32_t class_;            /* FFN_READ, or FFN_ERROR */
    uint32_t number;            /* 36 with FFN_ERROR, otherwise 0 */
    uint32_t operation;         /* FFN_REGISTER, FFN_ERASE or FFN_INTERROGATE */
    uint32_t crew;              /* 1 where the additional field is of a crew (BULK), otherwise 0 */
    uint64_t functional_number; /* in stored form */
    uint64_t msisdn;            /* of a forced erasure the MSISDN to erase, in stored form; otherwise 0 */
    size_t start;               /* where the additional field starts in the unpacked string */
    size_t length;              /* and how many characters it has, 0 to 30 */
    size_t codes;               /* of a crew how many two-digit codes the field ends in, 0 to 9; otherwise 0 */
};

/* What a message reads as. A field that its class does not name is 0. */
struct ffn_frame_read {
    uint32_t class_; /* FFN_READ, FFN_RETURN_ERROR, FFN_REJECT, or FFN_REFUSAL */
    uint32_t number; /* of FFN_RETURN_ERROR the code, of FFN_REJECT the problem, of FFN_REFUSAL 11; otherwise 0 */
    uint32_t first;  /* the first octet: transaction identifier and 0xB; of FFN_REFUSAL 0 */
    uint32_t invoke; /* the invoke number; of FFN_REFUSAL 0 */
    uint32_t scheme; /* of FFN_READ the data coding scheme */
    size_t start;    /* of FFN_READ where the string starts in the message */
    size_t length;   /* and how many octets it has: 0 to 237 in a Register, 0 to 80 in a Release Complete */
};

/* The three figures of a table by a recount. With FFN_REFUSAL all but number is 0. */
struct ffn_figures {
    uint32_t class_;    /* FFN_COUNTED, or FFN_REFUSAL */
    uint32_t number;    /* 2 with FFN_REFUSAL, otherwise 0 */
    uint64_t held;      /* numbers held */
    uint64_t waiting;   /* notices waiting */
    uint64_t in_flight; /* notices in flight */
};

/* Where a text message goes. A field that its class does not name is 0. */
struct ffn_route {
    uint32_t class_;           /* FFN_ROUTED, FFN_ASK_NETWORK, FFN_OUTCOME, FFN_ERROR, or FFN_REFUSAL */
    uint32_t number;           /* of FFN_OUTCOME 41 or 62, of FFN_ERROR 36, of FFN_REFUSAL 2; otherwise 0 */
    uint64_t msisdn;           /* of FFN_ROUTED the holder's MSISDN, in stored form */
    uint8_t code[3];           /* of FFN_ASK_NETWORK the code's three characters, "033" */
    uint8_t subaddress[3];     /* of FFN_ROUTED the octets of the subaddress, where it has one */
    uint8_t subaddress_octets; /* how many these are: 3, or 0 where it has none */
};

/* What an image reads as. With FFN_REFUSAL all but number is 0. */
struct ffn_image_read {
    uint32_t class_;    /* FFN_READ, or FFN_REFUSAL */
    uint32_t number;    /* 30, 31, 32, 34, 33, 2 or 8 with FFN_REFUSAL, otherwise 0 */
    size_t numbers;     /* the rows of the table */
    size_t subscribers; /* the rows of the list */
};

/*
 * Packs characters into octets (TS 23.038, USSD). FFN_WRITTEN with the count of
 * octets, 7n/8 rounded up. Refused 1 where out is shorter than the octets, then
 * 9 where a character is above 127 or a carriage return (13).
 */
struct ffn_answer ffn_pack(const uint8_t *chars, size_t chars_length, uint8_t *out, size_t out_length);

/*
 * Unpacks octets into characters. FFN_WRITTEN with the count of characters,
 * 8m/7 rounded down; where m is a multiple of 7 and the last character is a
 * carriage return, that one is dropped and not written. Refused 1 where out is
 * shorter than the characters before any drop, then 9 where unused bits are
 * not 0.
 */
struct ffn_answer ffn_unpack(const uint8_t *octets, size_t octets_length, uint8_t *out, size_t out_length);

/*
 * Writes a request string, packed. operation is FFN_REGISTER, FFN_ERASE or
 * FFN_INTERROGATE; msisdn is 0, or with FFN_ERASE the MSISDN that a forced
 * erasure names; additional has 0 to 30 characters from 0-9, A-Z and space.
 * An additional field that starts with BULK is of a crew: one digit n, and, if
 * n is above 0, a space and n two-digit codes, none 01, none twice. It needs a
 * number that ends in 01, and FFN_REGISTER or FFN_ERASE with msisdn 0.
 * FFN_WRITTEN with the count of octets, at most 63. Refused 1 where out has
 * under 160 octets, then 9 where the fields break these rules.
 */
struct ffn_answer ffn_write_request(uint32_t operation, uint64_t functional_number, uint64_t msisdn,
                                    const uint8_t *additional, size_t additional_length,
                                    uint8_t *out, size_t out_length);

/*
 * Reads a packed request string: FFN_READ with its fields, or FFN_ERROR 36.
 * Where the string reads and text has room for its characters (8m/7 rounded
 * down for m octets; 72 is always enough), they stand at the start of text,
 * the additional field from start on. Otherwise text stays as it was; it may
 * have length 0.
 */
struct ffn_request_read ffn_read_request(const uint8_t *octets, size_t octets_length, uint8_t *text, size_t text_length);

/*
 * A request: the requester's MSISDN, the data coding scheme and the packed
 * string. FFN_OUTCOME with the packed text of the outcome in reply: its two
 * digits, and of 03 a space and the holder's digits. A changing 01 or 02
 * changes the number's record, and the figures with it. Refused 1 (reply under 80
 * octets), 8, 2, 10; errors 35, 71, 36; in the papers' order.
 * A crew's request treats the lead number, then the number of each code, as
 * single requests; it leaves table and figures as they do. Its outcome is 11 or 12,
 * also where every number failed, or 42 before any of them. Behind the two
 * digits the reply of 11 and 12 says which succeeded (01 or 02) and which failed
 * (41, 61, 62, 63, 64, 67): a space, the count of successes, a space, their codes
 * and a space if there are any, the count of failures, and a space and their
 * codes if there are any. The lead's code is 01: "11 2 0102 0". It has at most
 * 28 characters, 25 octets.
 */
struct ffn_answer ffn_request(uint64_t *table, size_t table_words, uint64_t *figures, size_t figure_words,
                              const uint64_t *list, size_t list_words, uint8_t *reply, size_t reply_length,
                              uint64_t requester, uint8_t scheme, const uint8_t *string, size_t string_length);

/*
 * An erasure at the node's terminal, which names the holder: a forced erasure by
 * nobody listed. FFN_OUTCOME with the two digits of the outcome, packed, in reply.
 * The first that holds of 41, 62, 63 (the holder is another) and 68 (any notice of
 * the number is pending) leaves the table. Otherwise it is 02: nobody holds the
 * number, a notice to the holder waits, with supervisor 0, and the figures change
 * with the record. Whether the number is closed plays no part. Refused 1 (reply
 * under 80 octets), 2, 10, 7 (the number or the holder is malformed, 0 too), in
 * this order.
 */
struct ffn_answer ffn_terminal_erasure(uint64_t *table, size_t table_words, uint64_t *figures, size_t figure_words,
                                       uint8_t *reply, size_t reply_length,
                                       uint64_t functional_number, uint64_t holder);

/*
 * Where a text message goes: home is the node's own international code, digits are
 * those of the number asked for, both as characters. coded is 0 where the digits have no
 * code; then the node's own is put in front, whatever they begin with. Any other
 * value says that they have one. Refused 2; then error 36 where the node's code is
 * not exactly three digits, a character is no digit, or there are not 5 to 15
 * digits with the code. Then FFN_ASK_NETWORK where the first three digits are not
 * the node's own code, whether or not the number is in the table. Otherwise
 * FFN_OUTCOME 41 (not in the table) or 62 (nobody holds it), or FFN_ROUTED with the
 * holder's MSISDN. A number of type 2, 3 or 4, its fourth digit, has a subaddress
 * too (document 000, table 2): 0x80, 0x48, then the last digit in the high half and
 * the one before it in the low half, so branch 01 gives 0x10. It changes nothing.
 */
struct ffn_route ffn_routing(const uint64_t *table, size_t table_words, const uint8_t *home, size_t home_length,
                             const uint8_t *digits, size_t digit_count, uint8_t coded);

/*
 * Sends the notice of a number. FFN_SENT with the addressee, and the packed
 * notice in buffer: "##214*", the number, "*88*", the supervisor and "*#". From the
 * terminal the supervisor's place is blank, "##214*0492123401*88**#", a form that
 * no request has. The record's phase grows by 1. delay is 0 (300 seconds) or 60 to
 * 600; now is the second counter, which wraps. Refused 1 (buffer under 80 octets),
 * 2, 10, 7, 6, 4 (the phase is not odd), 5.
 */
struct ffn_answer ffn_sending(uint64_t *table, size_t table_words, uint64_t *figures, size_t figure_words,
                              uint8_t *buffer, size_t buffer_length,
                              uint64_t functional_number, uint32_t delay, uint32_t now);

/*
 * The result of a sending: kind 0 delivered, 1 unknown subscriber, 2 illegal
 * subscriber, 3 illegal equipment, 4 service not supported, 5 any other error,
 * a lost dialogue too. FFN_RESULT. Refused 2, 10, 7, 3, 4 (the phase is 0 or odd).
 */
struct ffn_answer ffn_result(uint64_t *table, size_t table_words, uint64_t *figures, size_t figure_words,
                             uint64_t functional_number, uint32_t kind, uint32_t now);

/*
 * The lowest number whose notice is due: FFN_FOUND, or FFN_NONE_DUE exactly if
 * none is due. delay is 0 (300 seconds) or 60 to 600, as in ffn_sending. It
 * takes no figures. Refused 2, 6.
 */
struct ffn_answer ffn_finding(const uint64_t *table, size_t table_words, uint32_t delay, uint32_t now);

/*
 * The figures of a table, counted: FFN_COUNTED. Called once at the start, for the
 * words that the calls are lent. Refused 2.
 */
struct ffn_figures ffn_recount(const uint64_t *table, size_t table_words);

/*
 * A framed request: the requester's MSISDN and a Register. The Release Complete
 * that answers it stands in frame, with the message's invoke number and its
 * transaction identifier, the flag inverted. Refused 1 (frame under 120 octets),
 * 11, 8, 2, 10. Then FFN_REJECT with problem 1 where not exactly 02 01 3B stands
 * behind the invoke number, with problem 2 where anything behind that is wrong;
 * otherwise the request as ffn_request treats it from error 35 on, with the
 * scheme and the string of the message. An error is FFN_RETURN_ERROR, an outcome
 * FFN_OUTCOME with the reply's text as the string of a Return Result; neither an
 * error nor a Reject changes table or figures. count is that of the frame: at
 * most 46 for an outcome, 12 for the others.
 */
struct ffn_answer ffn_framed_request(uint64_t *table, size_t table_words, uint64_t *figures, size_t figure_words,
                                     const uint64_t *list, size_t list_words, uint8_t *frame, size_t frame_length,
                                     uint64_t requester, const uint8_t *message, size_t message_length);

/*
 * Writes a Register: transaction identifier (flag and value, 0 to 15), invoke
 * number, and the fields of a request as ffn_write_request takes them, whose
 * string it holds with scheme 0x0F. FFN_WRITTEN with the count of octets, at
 * most 85. Refused 1 where frame has under 120 octets, then 9 where the fields
 * break the string's rules or the identifier is above 15.
 */
struct ffn_answer ffn_write_register(uint8_t transaction, uint8_t invoke, uint32_t operation,
                                     uint64_t functional_number, uint64_t msisdn,
                                     const uint8_t *additional, size_t additional_length,
                                     uint8_t *frame, size_t frame_length);

/*
 * Reads a Register: FFN_READ with the place of its string, FFN_REJECT with the
 * problem that ffn_framed_request would answer, or FFN_REFUSAL 11.
 */
struct ffn_frame_read ffn_read_register(const uint8_t *message, size_t message_length);

/*
 * Reads a Release Complete: FFN_READ, a result, with scheme 0x0F and the place of
 * its string; FFN_RETURN_ERROR with any code; FFN_REJECT with any problem; or
 * FFN_REFUSAL 11 for anything that the node's writer could not have written.
 */
struct ffn_frame_read ffn_read_release(const uint8_t *message, size_t message_length);

/*
 * Writes table and list as one image. FFN_WRITTEN with its size, eight octets a
 * word of table and list, and 24. Refused 8, 2, 10, 33 (image is shorter), in
 * this order.
 */
struct ffn_answer ffn_write_image(const uint64_t *table, size_t table_words, const uint64_t *figures, size_t figure_words,
                                  const uint64_t *list, size_t list_words, uint8_t *image, size_t image_length);

/*
 * Reads an image: FFN_READ with the counts of rows. The table's words, the list's
 * words and the three figures, recounted, stand at the front of table, list and
 * figures. Refused 30, 31, 32, 34, 33 (one of the three has no room), 2, 8, in
 * this order. Counts are compared as they stand, so huge ones are refused and no
 * product wraps. The contents are tested on the stack, which takes some 120 KiB,
 * before any lent word changes.
 */
struct ffn_image_read ffn_read_image(const uint8_t *image, size_t image_length, uint64_t *table, size_t table_words,
                                     uint64_t *list, size_t list_words, uint64_t *figures, size_t figure_words);

/*
 * Closes a number: FFN_CLOSED. It keeps its holder and its notice, and nobody
 * registers it any more; closing it again changes nothing. Refused 2, 10, 7 (the
 * number is malformed), 52, in this order.
 */
struct ffn_answer ffn_close(uint64_t *table, size_t table_words, const uint64_t *figures, size_t figure_words,
                            uint64_t functional_number);

/*
 * Removes the closed rows without holder and notice from the rows in use at the
 * front of words: FFN_ROWS with the count now in use, and as its value how many
 * went. The others keep their order; the words that they leave free become 0, and
 * what lies behind the rows stays. Refused 2 (the rows are more than the words, or
 * unsound), 10, in this order. Counts are compared as they stand, so huge ones are
 * refused and no product wraps.
 */
struct ffn_answer ffn_compact(uint64_t *words, size_t word_count, size_t rows, const uint64_t *figures, size_t figure_words);

/*
 * Puts an open number without holder in its place among the rows in use at the
 * front of words, and moves the rows behind it by one: FFN_ROWS with the count now
 * in use. What lies behind them stays. Refused 2 and 10 as by ffn_compact, 7 (the
 * number is malformed), 51 (also where it is closed), 50, in this order.
 */
struct ffn_answer ffn_add(uint64_t *words, size_t word_count, size_t rows, const uint64_t *figures, size_t figure_words,
                          uint64_t functional_number);

#ifdef __cplusplus
}
#endif

#endif
