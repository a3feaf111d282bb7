#include <stdio.h>
#include "ffn.h"

int main(void) {
    uint64_t table[7] = {10492123401, 0, 0, 0, 0, 0, 0}; /* 0492123401, open and free */
    const uint64_t list[2] = {14915100001, 1};           /* 4915100001 has Follow Me */
    uint8_t string[160], reply[80], none[1] = {0};
    struct ffn_figures n = ffn_recount(table, 7);        /* once, at the start */
    uint64_t figures[3] = {n.held, n.waiting, n.in_flight};
    struct ffn_answer w = ffn_write_request(FFN_REGISTER, table[0], 0, none, 0, string, sizeof string);
    struct ffn_answer a = ffn_request(table, 7, figures, 3, list, 2, reply, sizeof reply,
                                      list[0], 0x0F, string, w.count);
    printf("outcome %02u, held by %llu\n", (unsigned)a.number, (unsigned long long)table[1]);
    return 0;
}
