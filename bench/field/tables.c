/* The product in GF(2^16) modulo x^16 + x^12 + x^3 + x + 1 by tables of logarithms and powers, to compare with.
 * Prints the checksum, the nanoseconds and the number of products, as b_times does. */
#include <stdint.h>
#include <stdio.h>
#include <time.h>

enum { ORDER = 65535, PRODUCTS = 50000000 };

static uint16_t logarithm[ORDER + 1];
static uint16_t power[2 * ORDER];

static void fill(void) {
    uint32_t element = 1;
    for (int exponent = 0; exponent < ORDER; exponent++) {
        power[exponent] = power[exponent + ORDER] = (uint16_t)element;
        logarithm[element] = (uint16_t)exponent;
        element <<= 1;
        if (element & 0x10000) {
            element ^= 0x1100B;
        }
    }
}

static uint16_t mul(uint16_t a, uint16_t b) {
    if (a == 0 || b == 0) {
        return 0;
    }
    return power[(uint32_t)logarithm[a] + logarithm[b]];
}

static int64_t now(void) {
    struct timespec time;
    clock_gettime(CLOCK_MONOTONIC, &time);
    return time.tv_sec * 1000000000LL + time.tv_nsec;
}

int main(void) {
    fill();
    uint32_t state = 12345;
    uint16_t sum = 0;
    int64_t start = now();
    for (uint32_t i = 0; i < PRODUCTS; i++) {
        state = state * 1664525u + 1013904223u;
        sum ^= mul((uint16_t)(state >> 16), (uint16_t)state);
    }
    printf("%04x %lld %u\n", sum, (long long)(now() - start), (unsigned)PRODUCTS);
    return 0;
}
