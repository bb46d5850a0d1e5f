// A plain C SipHash-2-4, to compare with: the same chain of tags of 85 bytes as the program `bench` makes.
// clang -O3 -o siphash tools/siphash.c && ./siphash
#include <stdint.h>
#include <stdio.h>
#include <string.h>
#include <time.h>

#define ROTL(x, b) (uint64_t)(((x) << (b)) | ((x) >> (64 - (b))))
#define ROUND                                                              \
    do {                                                                   \
        v0 += v1; v1 = ROTL(v1, 13); v1 ^= v0; v0 = ROTL(v0, 32);          \
        v2 += v3; v3 = ROTL(v3, 16); v3 ^= v2;                             \
        v0 += v3; v3 = ROTL(v3, 21); v3 ^= v0;                             \
        v2 += v1; v1 = ROTL(v1, 17); v1 ^= v2; v2 = ROTL(v2, 32);          \
    } while (0)

static uint64_t word(const uint8_t *p) {
    uint64_t w;
    memcpy(&w, p, 8);
    return w;
}

__attribute__((noinline)) static uint64_t siphash(const uint8_t *key, const uint8_t *m, size_t len) {
    uint64_t k0 = word(key), k1 = word(key + 8);
    uint64_t v0 = k0 ^ 0x736f6d6570736575ULL, v1 = k1 ^ 0x646f72616e646f6dULL;
    uint64_t v2 = k0 ^ 0x6c7967656e657261ULL, v3 = k1 ^ 0x7465646279746573ULL;
    const uint8_t *end = m + (len - len % 8);
    uint64_t b = (uint64_t)len << 56;
    for (; m != end; m += 8) {
        uint64_t w = word(m);
        v3 ^= w; ROUND; ROUND; v0 ^= w;
    }
    switch (len & 7) {
    case 7: b |= (uint64_t)m[6] << 48; /* fall through */
    case 6: b |= (uint64_t)m[5] << 40; /* fall through */
    case 5: b |= (uint64_t)m[4] << 32; /* fall through */
    case 4: b |= (uint64_t)m[3] << 24; /* fall through */
    case 3: b |= (uint64_t)m[2] << 16; /* fall through */
    case 2: b |= (uint64_t)m[1] << 8; /* fall through */
    case 1: b |= (uint64_t)m[0];
    }
    v3 ^= b; ROUND; ROUND; v0 ^= b;
    v2 ^= 0xff; ROUND; ROUND; ROUND; ROUND;
    return v0 ^ v1 ^ v2 ^ v3;
}

int main(void) {
    enum { RUNS = 2000000 };
    uint8_t key[16], m[85];
    for (int i = 0; i < 16; i++) key[i] = (uint8_t)i;
    for (int i = 0; i < 84; i++) m[i + 1] = (uint8_t)i;
    uint64_t tag = 0;
    struct timespec a, b;
    clock_gettime(CLOCK_MONOTONIC, &a);
    for (int i = 0; i < RUNS; i++) {
        m[0] = (uint8_t)tag;
        tag = siphash(key, m, sizeof m);
    }
    clock_gettime(CLOCK_MONOTONIC, &b);
    double nanos = (double)(b.tv_sec - a.tv_sec) * 1e9 + (double)(b.tv_nsec - a.tv_nsec);
    printf("plain C, 85 bytes: %.1f ns a tag (last %016llx)\n", nanos / RUNS, (unsigned long long)tag);
    return 0;
}
