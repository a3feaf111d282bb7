#include <stdio.h>
#include "ffn_radio.h"

/* Packed: the notice ##214*0492123401*88*4915100002*#, and the node's replies 62 and 03 4915100001. */
static const uint8_t NOTICE[28] = {0xA3, 0x91, 0x2C, 0x46, 0x53, 0xC1, 0x68, 0x39, 0x59, 0x4C, 0x36, 0xA3, 0xC1, 0x62,
                                   0x2A, 0x1C, 0x4E, 0x45, 0xCB, 0xC5, 0x6A, 0x31, 0x18, 0x0C, 0x06, 0x93, 0xA9, 0x46};
static const uint8_t NOBODYS[2] = {0x36, 0x19};
static const uint8_t HERS[12] = {0xB0, 0x19, 0x88, 0x96, 0x8B, 0xD5, 0x62, 0x30, 0x18, 0x0C, 0x16, 0x03};

int main(void) {
    struct ffn_radio radio = {.own = 14915100001, .hand_held = 0}; /* fresh, in a cab */
    uint8_t question[160];
    ffn_radio_store(&radio, 10492123401); /* 0492123401 */
    ffn_radio_store(&radio, 10492123402);
    struct ffn_radio_doing next = ffn_radio_notice(&radio, NOTICE, sizeof NOTICE, question, sizeof question);
    printf("respond %u\n", next.respond);
    while (next.octets != 0) { /* here the question is sent to the node, and its reply comes */
        printf("question %u, %zu octets\n", next.invoke, next.octets);
        const int first = next.invoke == 1;
        next = ffn_radio_reply(&radio, next.invoke, first ? NOBODYS : HERS, first ? sizeof NOBODYS : sizeof HERS,
                               question, sizeof question);
    }
    for (size_t i = 0; i < radio.count; i++)
        printf("stored %llu, unsure %u\n", (unsigned long long)radio.entries[i].number, radio.entries[i].unsure);
    return 0;
}
