// What every program needs: where it begins, multiplication and division without the M extension, and the two memory functions that compilers call.
typedef unsigned int u32;
typedef unsigned char u8;
typedef __SIZE_TYPE__ size_t;

void work(u32 turn);

extern volatile u32 result;

#ifdef TURNS
// For loads/verify: a few turns, and a digest of their results. On the target the program ends with an illegal instruction if the digest is the expected
// one, and with a misaligned load if not.
u32 digest(void) {
    u32 sum = 0;
    for (u32 turn = 0; turn < TURNS; turn++) {
        work(turn);
        sum = (sum << 5) - sum + result;
    }
    return sum;
}
#endif

#ifdef __riscv
__attribute__((naked, noreturn, section(".text.start"))) void _start(void) {
#ifdef TURNS
    __asm__("la sp, _stack\n"
            "call digest\n"
            "li a1, %0\n"
            "beq a0, a1, 1f\n"
            "lw a0, 1(zero)\n"
            "1: .word 0\n" : : "i"(EXPECTED));
#else
    __asm__("la sp, _stack\n"
            "li s0, 0\n"
            "1: mv a0, s0\n"
            "call work\n"
            "addi s0, s0, 1\n"
            "j 1b\n");
#endif
}

__attribute__((used)) u32 __mulsi3(u32 a, u32 b) {
    u32 sum = 0;
    for (; b != 0; b >>= 1, a <<= 1)
        if (b & 1)
            sum += a;
    return sum;
}

static u32 divide(u32 a, u32 b, u32 *remainder) {
    u32 quotient = 0, rest = 0;
    for (int k = 31; k >= 0; k--) {
        rest = rest << 1 | (a >> k & 1);
        if (rest >= b) {
            rest -= b;
            quotient |= 1u << k;
        }
    }
    *remainder = rest;
    return quotient;
}

__attribute__((used)) u32 __udivsi3(u32 a, u32 b) {
    u32 rest;
    return divide(a, b, &rest);
}

__attribute__((used)) u32 __umodsi3(u32 a, u32 b) {
    u32 rest;
    divide(a, b, &rest);
    return rest;
}

__attribute__((used)) void *memset(void *to, int value, size_t count) {
    volatile u8 *at = to;
    while (count--)
        *at++ = (u8)value;
    return to;
}

__attribute__((used)) void *memcpy(void *to, const void *from, size_t count) {
    volatile u8 *at = to;
    const u8 *source = from;
    while (count--)
        *at++ = *source++;
    return to;
}

#endif

static inline u32 scramble(u32 x) {
    x ^= x << 13;
    x ^= x >> 17;
    return x ^ x << 5;
}
