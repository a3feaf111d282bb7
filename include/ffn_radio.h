/*
 * The cab radio as a C library: libradio_c.a. It is the other end of the node's
 * notice; a cab's software needs neither the node nor ffn.h.
 *
 * A radio stores up to 16 functional numbers. A notice begins a round: the radio
 * asks the node about stored numbers, one at a time, in the order in which they
 * were stored, and keeps those that the node confirms. The cab's main software
 * lends the radio's state to each call and sends what is to be sent.
 *
 * Every function works on memory that the caller lends for the one call, keeps
 * nothing, and allocates nothing. It returns one struct by value. Each is
 * proved, for every input, to return and to leave in all lent memory exactly
 * what document 02 says; no input is undefined. What a caller owes is only what
 * C itself asks:
 *  - a pointer is not null and points at a radio, or at as many octets as its
 *    length says, also where that length is 0 (the pointer is not followed then);
 *  - a radio is aligned as uint64_t;
 *  - radio and question buffer overlap no other memory of the call, and no other
 *    thread uses lent memory during the call.
 *
 * Numbers. A functional number and an MSISDN are separate numberings; each has
 * 5 to 15 decimal digits, and leading zeros count. A number is passed in stored
 * form: its digits with a 1 put in front, read as a decimal. 0492123401 is
 * 10492123401. Its last two digits are the branch, all others the root; numbers
 * of another length have another root.
 *
 * Notices. A notice is a forced erasure's string, "##214*", a functional number,
 * "*88*", the MSISDN of the supervisor, "*", an additional field and "#". Where the
 * holder was forced off at the node's terminal the MSISDN is blank. The additional
 * field has 0 to 30 characters from 0-9, A-Z and space, and does not start with
 * BULK; it says nothing, and neither does the MSISDN.
 *
 * Rounds. Strings are packed characters (TS 23.038, USSD), as the network carries
 * them with scheme 0x0F. A notice or a reply is answered with octets, the count of
 * the question that now stands at the start of the question buffer, and with its
 * invoke number. Where octets is 0 no question is to be asked, and the round is
 * over (invoke is 0 then, but 0 is an invoke number too). The caller sends the
 * question to the node, and gives what comes back to ffn_radio_reply with the
 * invoke number of the question that it answers. Where no reply comes, or an error
 * for one, she gives a string of 0 octets: the number is then kept, and marked.
 *
 * Refusals touch no memory. A question stands at the start of its buffer;
 * everything beyond its count stays as it was.
 */
#ifndef FFN_RADIO_H
#define FFN_RADIO_H

#include <stddef.h>
#include <stdint.h>

#ifdef __cplusplus
extern "C" {
#endif

/* A stored number. */
struct ffn_radio_entry {
    uint64_t number; /* the functional number */
    uint8_t unsure;  /* its mark: 1 unsure, 0 not */
    uint8_t to_ask;  /* 1 where it is still to be asked in this round, otherwise 0 */
};

/*
 * A radio. A fresh one is all 0 but for own and hand_held:
 *     struct ffn_radio radio = {.own = 14915100001, .hand_held = 0};
 * A cab radio asks about the stored numbers with the root of the notice's number,
 * a hand-held about all. The open question is about the first number with to_ask 1.
 * A radio is sound if own is a number; count is at most 16; each of the first
 * count entries has a number, none of them twice; unsure, to_ask and hand_held are
 * 0 or 1; every entry behind them is 0; and in a cab radio the numbers still to be
 * asked have one root. Every call leaves a sound radio sound. Between calls it is
 * the caller's, who may read it, keep it and lend it from another place.
 */
struct ffn_radio {
    uint64_t own;                       /* its own MSISDN */
    size_t count;                       /* how many numbers are stored */
    struct ffn_radio_entry entries[16]; /* these, in the order in which they were stored */
    uint8_t hand_held;                  /* 1 a hand-held, 0 a cab radio */
    uint8_t invoke;                     /* the invoke number of the last question; 0 at first */
};

/* What is to be done next. With a refusal all else is 0. */
struct ffn_radio_doing {
    uint8_t refusal; /* its number, see below; 0 where the call is not refused */
    uint8_t respond; /* 1 where the empty response is to be returned: of each notice that is not refused */
    uint8_t invoke;  /* the question's invoke number */
    size_t octets;   /* the question's octets; 0 where none is to be asked */
};

/*
 * Refusals:
 * 24 the radio is unsound; 23 the number is malformed; 20 the number is new and
 * the store is full; 1 the question buffer has under 160 octets, whether or not a
 * question follows; 21 the string is no notice; 22 no question is open, or the
 * reply answers another one. Each function names its own in the order of its
 * checks.
 */

/*
 * Stores a functional number: it goes last, not marked, and waits for the next
 * notice. One that is stored already changes nothing. Refused 24, 23, 20.
 */
struct ffn_radio_doing ffn_radio_store(struct ffn_radio *radio, uint64_t number);

/*
 * Takes a notice, packed: respond is 1, and a round begins. To be asked are the
 * stored numbers with the root of the notice's number, in a hand-held all. An
 * earlier round and its open question are forgotten; marks stay. Refused 24, 1,
 * 21.
 */
struct ffn_radio_doing ffn_radio_notice(struct ffn_radio *radio, const uint8_t *string, size_t string_length,
                                        uint8_t *question, size_t question_length);

/*
 * Takes the reply, packed, to the question with this invoke number, which is the
 * open one. "03", a space and the digits of own: the number is kept, its mark
 * taken off. "03", a space and another number, or just "62": it is dropped, and
 * those behind it move up. Anything else, 0 octets too: it is kept and marked
 * unsure. Then the next question follows, or none. Invoke numbers count up, 255
 * is followed by 0: a late reply to a question that a notice dropped is refused
 * until 256 questions later. Refused 24, 1, 22.
 */
struct ffn_radio_doing ffn_radio_reply(struct ffn_radio *radio, uint8_t invoke,
                                       const uint8_t *string, size_t string_length,
                                       uint8_t *question, size_t question_length);

#ifdef __cplusplus
}
#endif

#endif
