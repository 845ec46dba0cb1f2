// A stack machine's interpreter, running a small program: greatest common divisors and sums.
#include "common.h"

enum { PUSH, LOAD, STORE, ADD, SUB, LESS, JUMP, JUMP_ZERO, DUP, MUL, XOR, HALT };

static const signed char program[] = {
    PUSH, 0, STORE, 2, PUSH, 60, STORE, 3,                    // 0: sum = 0, n = 60
    LOAD, 3, PUSH, 17, MUL, LOAD, 4, ADD, STORE, 0,           // 8: a = 17 n + v4
    LOAD, 3, PUSH, 5, MUL, PUSH, 35, ADD, STORE, 1,           // 18: b = 5 n + 35
    LOAD, 0, LOAD, 1, XOR, JUMP_ZERO, 60,                     // 28: while a != b
    LOAD, 0, LOAD, 1, LESS, JUMP_ZERO, 51,                    // 35: if a < b
    LOAD, 1, LOAD, 0, SUB, STORE, 1, JUMP, 28,                // 42: b -= a
    LOAD, 0, LOAD, 1, SUB, STORE, 0, JUMP, 28,                // 51: else a -= b
    LOAD, 2, LOAD, 0, ADD, STORE, 2,                          // 60: sum += a
    LOAD, 3, PUSH, 1, SUB, DUP, STORE, 3, JUMP_ZERO, 79,      // 67: n -= 1
    JUMP, 8,                                                  // 77
    HALT,                                                     // 79
};

static int stack[64], variables[8];
volatile u32 result;

static int interpret(int steps) {
    const signed char *pc = program;
    int *sp = stack;
    while (steps-- > 0) {
        switch (*pc++) {
        case PUSH: *sp++ = *pc++; break;
        case LOAD: *sp++ = variables[(int)*pc++]; break;
        case STORE: variables[(int)*pc++] = *--sp; break;
        case ADD: sp--; sp[-1] += *sp; break;
        case SUB: sp--; sp[-1] -= *sp; break;
        case XOR: sp--; sp[-1] ^= *sp; break;
        case MUL: sp--; sp[-1] *= *sp; break;
        case LESS: sp--; sp[-1] = sp[-1] < *sp; break;
        case JUMP: pc = program + *pc; break;
        case JUMP_ZERO: pc = *--sp == 0 ? program + *pc : pc + 1; break;
        case DUP: *sp = sp[-1]; sp++; break;
        default: return variables[2];
        }
    }
    return -1;
}

void work(u32 turn) {
    variables[4] = (int)(turn & 31) + 1;
    result = (u32)interpret(60000);
}
