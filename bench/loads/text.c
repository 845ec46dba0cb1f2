// String work: makes words, splits them, counts them in a hash table, and compares and reverses.
#include "common.h"

static char text[5000];
static struct { char word[12]; u32 count; } entries[256];
volatile u32 result;

static u32 length(const char *s) {
    const char *at = s;
    while (*at)
        at++;
    return (u32)(at - s);
}

static int equal(const char *a, const char *b) {
    while (*a && *a == *b)
        a++, b++;
    return *a == *b;
}

static void make(u32 x) {
    char *at = text;
    while (at < text + sizeof text - 12) {
        x = scramble(x);
        for (u32 k = 0; k < 2 + (x & 3); k++)
            *at++ = (char)('a' + (x >> (4 + 3 * k) & 7));
        *at++ = ' ';
    }
    *at = 0;
}

static void count(const char *word) {
    u32 hash = 5381;
    for (const char *c = word; *c; c++)
        hash = (hash << 5) + hash + (u8)*c;
    for (u32 k = 0; k < 256; k++) {
        u32 at = (hash + k) & 255;
        if (entries[at].count == 0)
            for (u32 n = 0; n <= length(word); n++)
                entries[at].word[n] = word[n];
        if (equal(entries[at].word, word)) {
            entries[at].count++;
            return;
        }
    }
}

void work(u32 turn) {
    char word[12];
    u32 n = 0, most = 0;
    make(turn + 77);
    for (u32 k = 0; k < 256; k++)
        entries[k].count = 0;
    for (const char *c = text; *c; c++) {
        if (*c != ' ') {
            word[n++] = *c;
            continue;
        }
        word[n] = 0;
        count(word);
        n = 0;
    }
    for (u32 k = 0; k < 256; k++)
        if (entries[k].count > most)
            most = entries[k].count;
    result = most + length(text);
}
