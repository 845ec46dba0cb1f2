// Quicksort with insertion for short parts.
#include "common.h"

#define COUNT 3000
static int values[COUNT];
volatile u32 result;

static void insertion(int *from, int *to) {
    for (int *p = from + 1; p < to; p++) {
        int value = *p, *q = p;
        for (; q > from && q[-1] > value; q--)
            *q = q[-1];
        *q = value;
    }
}

static void quicksort(int *from, int *to) {
    while (to - from > 12) {
        int pivot = from[(to - from) / 2], *i = from, *j = to - 1;
        while (i <= j) {
            while (*i < pivot) i++;
            while (*j > pivot) j--;
            if (i <= j) {
                int t = *i;
                *i++ = *j;
                *j-- = t;
            }
        }
        quicksort(from, j + 1);
        from = i;
    }
    insertion(from, to);
}

void work(u32 turn) {
    u32 x = turn * 7 + 99;
    for (int k = 0; k < COUNT; k++)
        values[k] = (int)(x = scramble(x));
    quicksort(values, values + COUNT);
    result = (u32)values[COUNT / 2];
}
