// The sieve of Eratosthenes over bytes, and remainders by division.
#include "common.h"

#define LIMIT 16000
static u8 composite[LIMIT];
volatile u32 result;

void work(u32 turn) {
    u32 limit = LIMIT - (turn & 63), primes = 0, sum = 0;
    for (u32 k = 0; k < limit; k++)
        composite[k] = 0;
    for (u32 k = 2; k < limit; k++) {
        if (composite[k])
            continue;
        primes++;
        if ((primes & 7) == 0)
            sum += (k * k + turn) % (k + 1);
        for (u32 m = k + k; m < limit; m += k)
            composite[m] = 1;
    }
    result = primes + sum;
}
