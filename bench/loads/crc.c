// CRC-32 of a buffer by a table that is made anew each turn.
#include "common.h"

static u32 table[256];
static u8 buffer[6000];
volatile u32 result;

static void make_table(void) {
    for (u32 n = 0; n < 256; n++) {
        u32 c = n;
        for (int k = 0; k < 8; k++)
            c = c & 1 ? 0xedb88320u ^ c >> 1 : c >> 1;
        table[n] = c;
    }
}

void work(u32 turn) {
    u32 x = turn + 12345;
    make_table();
    for (u32 k = 0; k < sizeof buffer; k++) {
        x = scramble(x);
        buffer[k] = (u8)x;
    }
    u32 crc = ~0u;
    for (u32 k = 0; k < sizeof buffer; k++)
        crc = table[(crc ^ buffer[k]) & 255] ^ crc >> 8;
    result = ~crc;
}
