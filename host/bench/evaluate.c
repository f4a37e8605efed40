/* Times the proved evaluators against a plain C interpreter of the same bytes, in one run, alternating.
   Build: cc -O3 evaluate.c libbench_parts.a (see run-evaluate beside this file). */
#include <stdint.h>
#include <stdio.h>
#include <time.h>

/* The words of a state, and of a model's outline with what is prepared behind it. */
enum { STATE_WORDS = 16, PREPARED_WORDS = 2601 };

/* The proved evaluators: a number's value, or INT64_MIN for trouble; 1 where a condition holds, 0 where not, 2 for trouble.
   State and outline are lent whole, STATE_WORDS and PREPARED_WORDS words. */
int64_t repgypsum_number_value(const uint8_t *e, uintptr_t e_len, const uint8_t *model, uintptr_t model_len, const uint64_t state[STATE_WORDS],
                               const uint64_t outline[PREPARED_WORDS]);
uint8_t repgypsum_condition_value(const uint8_t *e, uintptr_t e_len, const uint8_t *model, uintptr_t model_len, const uint64_t state[STATE_WORDS],
                                  const uint64_t outline[PREPARED_WORDS]);

/* Where the outline has the kinds of variables; a set's is 64 and its object count. */
enum { KINDS = 16 };

/* ---- the plain interpreter: the forms that are timed and their neighbours */

struct context {
    const uint64_t *state;
    const uint64_t *outline;
    int trouble;
};

static int64_t ranged(struct context *c, int64_t z) {
    if (z < -2147483648LL || z > 2147483647LL) c->trouble = 11;
    return z;
}

static int64_t floored(int64_t a, int64_t b) {
    int64_t q = a / b;
    return (a % b != 0 && (a < 0) != (b < 0)) ? q - 1 : q;
}

static uint64_t element(const uint8_t **e, struct context *c) {
    uint8_t b = *(*e)++;
    uint8_t k = *(*e)++;
    return b == 0x30 ? k : c->state[k];
}

/* How many objects a set may have, by its first leaf that is a set. */
static uint64_t objects(const uint8_t *e, const struct context *c) {
    while (e[0] >= 0x42) e += e[0] <= 0x43 ? 3 : 1;
    return e[0] == 0x40 ? e[1] : c->outline[KINDS + e[1]] - 64;
}

static uint64_t members(const uint8_t **e, struct context *c) {
    uint8_t b = *(*e)++;
    if (b == 0x40) {
        uint64_t w = 0;
        for (int i = 0; i < 8; i++) w |= (uint64_t)(*e)[1 + i] << (8 * i);
        *e += 9;
        return w;
    }
    if (b == 0x41) return c->state[*(*e)++];
    if (b == 0x42 || b == 0x43) {
        uint64_t k = element(e, c);
        uint64_t s = members(e, c);
        return b == 0x42 ? s | (1ULL << k) : s & ~(1ULL << k);
    }
    if (b == 0x47) {
        uint64_t all = UINT64_MAX >> (64 - objects(*e, c));
        return all & ~members(e, c);
    }
    uint64_t s = members(e, c);
    uint64_t t = members(e, c);
    return b == 0x44 ? s | t : b == 0x45 ? s & t : s & ~t;
}

static int64_t number(const uint8_t **e, struct context *c) {
    uint8_t b = *(*e)++;
    if (b == 0x20) {
        const uint8_t *p = *e;
        *e += 4;
        return (int32_t)((uint32_t)p[0] | (uint32_t)p[1] << 8 | (uint32_t)p[2] << 16 | (uint32_t)p[3] << 24);
    }
    if (b == 0x21) return (int64_t)c->state[*(*e)++] - 2147483648LL;
    if (b == 0x29) return __builtin_popcountll(members(e, c));
    int64_t x = number(e, c);
    if (c->trouble) return 0;
    int64_t y = number(e, c);
    if (c->trouble) return 0;
    switch (b) {
    case 0x22: return ranged(c, x + y);
    case 0x23: return ranged(c, x - y);
    case 0x24: return ranged(c, x * y);
    case 0x25:
        if (y == 0) {
            c->trouble = 12;
            return 0;
        }
        return ranged(c, floored(x, y));
    case 0x26: return x < y ? x : y;
    default: return x > y ? x : y;
    }
}

static int condition(const uint8_t **e, struct context *c) {
    uint8_t b = *(*e)++;
    if (b == 0x54) {
        uint64_t k = element(e, c);
        return members(e, c) >> k & 1;
    }
    int64_t x = number(e, c);
    int64_t y = number(e, c);
    return b == 0x50 ? x == y : b == 0x51 ? x < y : x <= y;
}

/* ---- timing */

static double now(void) {
    struct timespec t;
    clock_gettime(CLOCK_MONOTONIC, &t);
    return t.tv_sec * 1e9 + t.tv_nsec;
}

enum { ROUNDS = 20, CALLS = 500000 };

int main(void) {
    uint64_t state[STATE_WORDS], outline[PREPARED_WORDS] = {0};
    for (int v = 0; v < STATE_WORDS; v++) state[v] = 2147483648ULL + (uint64_t)(v * 37);
    state[8] = 0x5a5aULL;
    outline[KINDS + 8] = 64 + 16;
    /* the sum of variables 0 to 7, balanced: 15 nodes */
    const uint8_t sum[] = {0x22, 0x22, 0x22, 0x21, 0, 0x21, 1, 0x22, 0x21, 2, 0x21, 3, 0x22, 0x22, 0x21, 4, 0x21, 5, 0x22, 0x21, 6, 0x21, 7};
    /* object 3 in set variable 8: 3 nodes */
    const uint8_t member[] = {0x54, 0x30, 3, 0x41, 8};
    /* object 3 in its complement: 4 nodes */
    const uint8_t outside[] = {0x54, 0x30, 3, 0x47, 0x41, 8};
    double proved[3] = {0, 0, 0}, plain[3] = {0, 0, 0};
    int64_t check = 0;
    for (int round = 0; round < ROUNDS; round++) {
        double a = now();
        for (int i = 0; i < CALLS; i++) {
            state[0] = 2147483648ULL + (uint64_t)(i & 255);
            check += repgypsum_number_value(sum, sizeof sum, sum, sizeof sum, state, outline);
        }
        double b = now();
        for (int i = 0; i < CALLS; i++) {
            state[0] = 2147483648ULL + (uint64_t)(i & 255);
            struct context c = {state, outline, 0};
            const uint8_t *e = sum;
            check -= number(&e, &c);
        }
        double d = now();
        for (int i = 0; i < CALLS; i++) {
            state[8] = (uint64_t)(i & 65535);
            check += repgypsum_condition_value(member, sizeof member, member, sizeof member, state, outline);
        }
        double f = now();
        for (int i = 0; i < CALLS; i++) {
            state[8] = (uint64_t)(i & 65535);
            struct context c = {state, outline, 0};
            const uint8_t *e = member;
            check -= condition(&e, &c);
        }
        double g = now();
        for (int i = 0; i < CALLS; i++) {
            state[8] = (uint64_t)(i & 65535);
            check += repgypsum_condition_value(outside, sizeof outside, outside, sizeof outside, state, outline);
        }
        double h = now();
        for (int i = 0; i < CALLS; i++) {
            state[8] = (uint64_t)(i & 65535);
            struct context c = {state, outline, 0};
            const uint8_t *e = outside;
            check -= condition(&e, &c);
        }
        double j = now();
        proved[0] += b - a;
        plain[0] += d - b;
        proved[1] += f - d;
        plain[1] += g - f;
        proved[2] += h - g;
        plain[2] += j - h;
    }
    if (check != 0) {
        printf("the two disagree\n");
        return 1;
    }
    double calls = (double)ROUNDS * CALLS;
    printf("sum of eight variables: proved %.2f ns a node, plain C %.2f, ratio %.2f\n", proved[0] / calls / 15, plain[0] / calls / 15, proved[0] / plain[0]);
    printf("condition 54: proved %.2f ns a node, plain C %.2f, ratio %.2f\n", proved[1] / calls / 3, plain[1] / calls / 3, proved[1] / plain[1]);
    printf("condition 54 of a complement: proved %.2f ns a node, plain C %.2f, ratio %.2f\n", proved[2] / calls / 4, plain[2] / calls / 4, proved[2] / plain[2]);
    return 0;
}
