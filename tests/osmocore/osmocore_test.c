/*
 * Our packing and our frames beside libosmocore's, a stock tool of the field: the same octets for every length 0 to 160,
 * and it reads back what we wrote; it reads our Registers, and writes the Release Completes that we write.
 * Its readers are lenient: they show that what we write is understood, not that what we refuse is wrong.
 */
#include <stdio.h>
#include <stdlib.h>
#include <string.h>

#include <osmocom/gsm/gsm0480.h>
#include <osmocom/gsm/gsm_utils.h>

#include "ffn.h"

enum { MOST = 160, ROOM = 512 };

/* Characters that ASCII and the GSM alphabet have at the same place. */
static const char SHARED[] = "0123456789ABCDEFGHIJKLMNOPQRSTUVWXYZabcdefghijklmnopqrstuvwxyz *#!%&()+,-./:;<=>?";

static void fail(const char *what, int n)
{
    fprintf(stderr, "length %d: %s\n", n, what);
    exit(1);
}

static void packing(void)
{
    for (int n = 0; n <= MOST; n++) {
        char text[ROOM] = {0}, read[ROOM] = {0};
        uint8_t ours[ROOM] = {0}, theirs[ROOM] = {0}, back[ROOM] = {0};
        int octets = 0;

        for (int i = 0; i < n; i++)
            text[i] = SHARED[(size_t)(i * 7 + n * 3) % (sizeof SHARED - 1)];
        struct ffn_answer packed = ffn_pack((const uint8_t *)text, (size_t)n, ours, sizeof ours);
        gsm_7bit_encode_n_ussd(theirs, sizeof theirs, text, &octets);
        if (packed.class_ != FFN_WRITTEN || packed.count != (size_t)octets || memcmp(ours, theirs, packed.count) != 0)
            fail("other octets", n);
        if (n > 0 && (gsm_7bit_decode_n(read, sizeof read, ours, (uint8_t)n) != n || memcmp(read, text, (size_t)n) != 0))
            fail("libosmocore reads other characters", n);
        struct ffn_answer unpacked = ffn_unpack(ours, packed.count, back, sizeof back);
        if (unpacked.class_ != FFN_WRITTEN || unpacked.count != (size_t)n || memcmp(back, text, (size_t)n) != 0)
            fail("we read other characters", n);
    }

    /* Outcome 67: its USSD reader, told the number of characters, drops the last one; ours does not. */
    uint8_t octets[2], characters[2];
    char read[ROOM] = {0};
    ffn_pack((const uint8_t *)"67", 2, octets, sizeof octets);
    gsm_7bit_decode_n_ussd(read, sizeof read, octets, 2);
    if (ffn_unpack(octets, 2, characters, 2).count != 2 || memcmp(characters, "67", 2) != 0)
        fail("67 is not read back", 2);
    printf("packing equals libosmocore's for lengths 0 to %d; 67 reads as 67 here, as \"%s\" by gsm_7bit_decode_n_ussd\n", MOST, read);
}

static const uint64_t A = 14915100001, F = 10492123401;
static const uint64_t LIST[2] = {14915100001, 1};

/* A Register of ours, written with these values, and what libosmocore reads in it. */
static void reads_register(uint8_t transaction, uint8_t invoke, uint32_t operation, uint64_t msisdn, const char *field, const char *text)
{
    uint8_t frame[120], string[160];
    struct ss_request read = {0};
    const uint8_t *additional = (const uint8_t *)field;
    struct ffn_answer made = ffn_write_register(transaction, invoke, operation, F, msisdn, additional, strlen(field), frame, sizeof frame);
    struct ffn_answer packed = ffn_write_request(operation, F, msisdn, additional, strlen(field), string, sizeof string);

    if (made.class_ != FFN_WRITTEN || packed.class_ != FFN_WRITTEN)
        fail("no Register", transaction);
    if (gsm0480_decode_ss_request((const struct gsm48_hdr *)frame, (uint16_t)made.count, &read) != 1)
        fail("libosmocore does not read our Register", (int)made.count);
    /* Of the transaction identifier it keeps the value. */
    if (read.opcode != GSM0480_OP_CODE_PROCESS_USS_REQ || read.invoke_id != invoke || read.transaction_id != (transaction << 4 & 0x70))
        fail("libosmocore reads another Register", transaction);
    if (read.ussd_data_dcs != 0x0F || read.ussd_data_len != packed.count || memcmp(read.ussd_data, string, packed.count) != 0)
        fail("libosmocore reads another string", (int)packed.count);
    if (strcmp((const char *)read.ussd_text, text) != 0)
        fail("libosmocore reads another text", (int)packed.count);
    /* 0x7B, document 000's, and 0x3B, TS 24.080's, differ in a bit that it masks. */
    frame[1] ^= 0x40;
    if (gsm0480_decode_ss_request((const struct gsm48_hdr *)frame, (uint16_t)made.count, &read) != 1)
        fail("libosmocore reads 0x7B alone", transaction);
}

/* The last octets of a frame are those that libosmocore wrote. */
static void ends_with(const uint8_t *frame, size_t count, struct msgb *theirs, const char *what)
{
    size_t octets = msgb_length(theirs);

    if (octets > count || memcmp(frame + count - octets, msgb_data(theirs), octets) != 0)
        fail(what, (int)count);
    msgb_free(theirs);
}

/* A framed request by A with one octet changed, or none where the place is 0; F is free. */
static struct ffn_answer ask(uint8_t invoke, size_t place, uint8_t octet, uint8_t *frame, size_t frame_length)
{
    uint64_t table[7] = {F, 0, 0, 0, 0, 0, 0}, figures[3] = {0, 0, 0};
    uint8_t message[120], none[1] = {0};
    struct ffn_answer made = ffn_write_register(1, invoke, FFN_REGISTER, F, 0, none, 0, message, sizeof message);

    if (place > 0)
        message[place] = octet;
    return ffn_framed_request(table, 7, figures, 3, LIST, 2, frame, frame_length, A, message, made.count);
}

static void frames(void)
{
    uint8_t frame[120];

    for (int n = 0; n < 16; n++) {
        reads_register((uint8_t)n, (uint8_t)(n * 17), FFN_REGISTER, 0, "", "**214*0492123401***#");
        reads_register((uint8_t)n, (uint8_t)(255 - n), FFN_ERASE, A, "TRAIN 4711", "##214*0492123401*88*4915100001*TRAIN 4711#");
    }
    for (int n = 0; n < 256; n++) {
        uint8_t invoke = (uint8_t)n;
        struct ffn_answer said = ask(invoke, 0, 0, frame, sizeof frame);
        if (said.class_ != FFN_OUTCOME || said.count != 23)
            fail("no Return Result", n);
        ends_with(frame, said.count, gsm0480_create_ussd_resp(invoke, 0x90, "01"), "libosmocore writes another Return Result");
        said = ask(invoke, 16, 0x00, frame, sizeof frame);
        if (said.class_ != FFN_RETURN_ERROR)
            fail("no Return Error", n);
        ends_with(frame, said.count, gsm0480_gen_return_error(invoke, 71), "libosmocore writes another Return Error");
        said = ask(invoke, 11, 0x3C, frame, sizeof frame);
        if (said.class_ != FFN_REJECT)
            fail("no Reject", n);
        ends_with(frame, said.count, gsm0480_gen_reject(invoke, 0x81, 1), "libosmocore writes another Reject");
    }
    printf("libosmocore reads our Registers, 0x7B and 0x3B, and writes our Return Results, Return Errors and Rejects\n");
}

int main(void)
{
    packing();
    frames();
    return 0;
}
