/* A plain decoder of the same code, to compare with: tables of logarithms, 32 sums, the Berlekamp-Massey algorithm, a search of
   all places for roots, and Forney's formula. It changes the same symbols as b_times. With the word `peak` it runs a command
   and prints the most memory that it held, in KiB. */
#include <stdint.h>
#include <stdio.h>
#include <stdlib.h>
#include <string.h>
#include <sys/resource.h>
#include <sys/wait.h>
#include <time.h>
#include <unistd.h>

enum { ORDER = 65535, CHECK = 32, LIMIT = 16, DATA = ORDER - CHECK, BLOCK = 2 * DATA };

static uint16_t power[2 * ORDER];
static uint32_t logarithm[ORDER + 1];
static uint16_t generator[CHECK + 1];

static uint16_t times(uint16_t a, uint16_t b) { return a && b ? power[logarithm[a] + logarithm[b]] : 0; }
static uint16_t over(uint16_t a, uint16_t b) { return a ? power[logarithm[a] + ORDER - logarithm[b]] : 0; }

static void make_tables(void) {
    uint32_t x = 1;
    for (int i = 0; i < ORDER; i++) {
        power[i] = power[i + ORDER] = x;
        logarithm[x] = i;
        x <<= 1;
        if (x & 0x10000) x ^= 0x1100B;
    }
    generator[0] = 1;
    for (int r = 1; r <= CHECK; r++)
        for (int i = r; i > 0; i--) generator[i] ^= times(generator[i - 1], power[r]);
}

static int symbols_of(const uint8_t *bytes, size_t len, uint16_t *out) {
    int n = (len + 1) / 2;
    for (int i = 0; i < n; i++) out[i] = bytes[2 * i] << 8 | (2 * (size_t)i + 1 < len ? bytes[2 * i + 1] : 0);
    return n;
}

static void parity_of(const uint16_t *data, int n, uint16_t *check) {
    memset(check, 0, CHECK * sizeof *check);
    for (int i = 0; i < n; i++) {
        uint16_t factor = check[0] ^ data[i];
        memmove(check, check + 1, (CHECK - 1) * sizeof *check);
        check[CHECK - 1] = 0;
        if (factor)
            for (int k = 0; k < CHECK; k++) check[k] ^= times(factor, generator[k + 1]);
    }
}

/* Corrects a word of n data symbols by the given check symbols; 0 where it cannot. */
static int decode(uint16_t *data, int n, const uint16_t *given) {
    uint16_t sums[CHECK], locator[CHECK + 1] = {1}, before[CHECK + 1] = {1}, values[CHECK] = {0};
    int any = 0, length = 0, shift = 1;
    uint16_t last = 1;
    for (int j = 0; j < CHECK; j++) {
        uint16_t sum = 0;
        for (int i = 0; i < n; i++) sum = times(sum, power[j + 1]) ^ data[i];
        for (int i = 0; i < CHECK; i++) sum = times(sum, power[j + 1]) ^ given[i];
        sums[j] = sum;
        any |= sum;
    }
    if (!any) return 1;
    for (int i = 0; i < CHECK; i++) {
        uint16_t gap = sums[i];
        for (int k = 1; k <= length; k++) gap ^= times(locator[k], sums[i - k]);
        if (!gap) { shift++; continue; }
        uint16_t old[CHECK + 1], scale = over(gap, last);
        memcpy(old, locator, sizeof old);
        for (int k = 0; k + shift <= CHECK; k++) locator[k + shift] ^= times(scale, before[k]);
        if (2 * length <= i) {
            length = i + 1 - length;
            memcpy(before, old, sizeof before);
            last = gap;
            shift = 1;
        } else shift++;
    }
    if (length > LIMIT) return 0;
    for (int i = 0; i < length; i++)
        for (int k = 0; k <= i; k++) values[i] ^= times(sums[i - k], locator[k]);
    int found = 0, places[LIMIT];
    uint16_t errors[LIMIT];
    uint32_t at[LIMIT + 1];
    for (int k = 1; k <= length; k++) at[k] = locator[k] ? logarithm[locator[k]] : 0;
    for (int e = 0; e < n + CHECK; e++) {       /* the inverse of power e */
        uint16_t value = 1, slope = 0;
        for (int k = 1; k <= length; k++)
            if (locator[k]) {
                uint16_t term = power[at[k]];
                value ^= term;
                if (k & 1) slope ^= term;
                at[k] = at[k] >= (uint32_t)k ? at[k] - k : at[k] + ORDER - k;
            }
        if (value) continue;
        if (found == length || e < CHECK) return 0;
        uint16_t top = 0, inverse = power[(ORDER - e) % ORDER];
        for (int k = length - 1; k >= 0; k--) top = times(top, inverse) ^ values[k];
        places[found] = n - 1 - (e - CHECK);
        errors[found++] = over(times(top, inverse), slope);
    }
    if (found != length) return 0;
    for (int i = 0; i < found; i++) data[places[i]] ^= errors[i];
    return 1;
}

static int peak(char **command) {
    struct rusage usage;
    int status;
    pid_t child = fork();
    if (child == 0) { execv(command[0], command); _exit(127); }
    if (child < 0 || wait4(child, &status, 0, &usage) < 0) return 1;
    printf("%ld\n", usage.ru_maxrss);
    return status != 0;
}

int main(int count, char **words) {
    if (count > 2 && !strcmp(words[1], "peak")) return peak(words + 2);
    if (count < 4) return 0;
    static uint8_t content[8388608], changed[8388608], repaired[8388608];
    static uint16_t data[DATA], given[65][CHECK];
    FILE *file = fopen(words[1], "rb");
    if (!file) return 1;
    size_t len = fread(content, 1, sizeof content, file);
    int blocks = (len + BLOCK - 1) / BLOCK, bad = atoi(words[2]), symbols = atoi(words[3]), good = 1;
    make_tables();
    memcpy(changed, content, len);
    for (int b = 0; b < bad; b++)
        for (int k = 0; k < symbols; k++)
            if ((size_t)b * BLOCK + k * 240 < len) changed[(size_t)b * BLOCK + k * 240] ^= 0x5A;
    for (int b = 0; b < blocks; b++) {
        size_t start = (size_t)b * BLOCK, size = len - start < BLOCK ? len - start : BLOCK;
        parity_of(data, symbols_of(content + start, size, data), given[b]);
    }
    struct timespec from, to;
    clock_gettime(CLOCK_MONOTONIC, &from);
    for (int b = 0; b < blocks && good; b++) {
        size_t start = (size_t)b * BLOCK, size = len - start < BLOCK ? len - start : BLOCK;
        int n = symbols_of(changed + start, size, data);
        good = decode(data, n, given[b]);
        for (size_t i = 0; i < size; i++) repaired[start + i] = i & 1 ? data[i / 2] & 255 : data[i / 2] >> 8;
    }
    clock_gettime(CLOCK_MONOTONIC, &to);
    long long nanoseconds = (to.tv_sec - from.tv_sec) * 1000000000LL + (to.tv_nsec - from.tv_nsec);
    printf("- %lld %s\n", nanoseconds, !good ? "none" : memcmp(repaired, content, len) ? "other" : "same");
    return 0;
}
