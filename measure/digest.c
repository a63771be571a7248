// The proved digest beside a plain SHA-256 in C: whether they agree, and the time of each.
#include <stdint.h>
#include <stdio.h>
#include <string.h>
#include <time.h>

// crates/digest_c: a slice is a pointer and a length
void chhutirok_digest(const uint8_t *m, size_t n, uint8_t *out);

static const uint32_t K[64] = {
    0x428a2f98, 0x71374491, 0xb5c0fbcf, 0xe9b5dba5, 0x3956c25b, 0x59f111f1, 0x923f82a4, 0xab1c5ed5,
    0xd807aa98, 0x12835b01, 0x243185be, 0x550c7dc3, 0x72be5d74, 0x80deb1fe, 0x9bdc06a7, 0xc19bf174,
    0xe49b69c1, 0xefbe4786, 0x0fc19dc6, 0x240ca1cc, 0x2de92c6f, 0x4a7484aa, 0x5cb0a9dc, 0x76f988da,
    0x983e5152, 0xa831c66d, 0xb00327c8, 0xbf597fc7, 0xc6e00bf3, 0xd5a79147, 0x06ca6351, 0x14292967,
    0x27b70a85, 0x2e1b2138, 0x4d2c6dfc, 0x53380d13, 0x650a7354, 0x766a0abb, 0x81c2c92e, 0x92722c85,
    0xa2bfe8a1, 0xa81a664b, 0xc24b8b70, 0xc76c51a3, 0xd192e819, 0xd6990624, 0xf40e3585, 0x106aa070,
    0x19a4c116, 0x1e376c08, 0x2748774c, 0x34b0bcb5, 0x391c0cb3, 0x4ed8aa4a, 0x5b9cca4f, 0x682e6ff3,
    0x748f82ee, 0x78a5636f, 0x84c87814, 0x8cc70208, 0x90befffa, 0xa4506ceb, 0xbef9a3f7, 0xc67178f2,
};

static inline uint32_t rotr(uint32_t x, int n) { return x >> n | x << (32 - n); }

static void compress(uint32_t v[8], const uint8_t *p) {
    uint32_t w[64];
    for (int t = 0; t < 16; t++)
        w[t] = (uint32_t)p[4 * t] << 24 | (uint32_t)p[4 * t + 1] << 16 | (uint32_t)p[4 * t + 2] << 8 | p[4 * t + 3];
    for (int t = 16; t < 64; t++) {
        uint32_t x = w[t - 2], y = w[t - 15];
        w[t] = (rotr(x, 17) ^ rotr(x, 19) ^ x >> 10) + w[t - 7] + (rotr(y, 7) ^ rotr(y, 18) ^ y >> 3) + w[t - 16];
    }
    uint32_t a = v[0], b = v[1], c = v[2], d = v[3], e = v[4], f = v[5], g = v[6], h = v[7];
    for (int t = 0; t < 64; t++) {
        uint32_t t1 = h + (rotr(e, 6) ^ rotr(e, 11) ^ rotr(e, 25)) + ((e & f) ^ (~e & g)) + K[t] + w[t];
        uint32_t t2 = (rotr(a, 2) ^ rotr(a, 13) ^ rotr(a, 22)) + ((a & b) ^ (a & c) ^ (b & c));
        h = g, g = f, f = e, e = d + t1, d = c, c = b, b = a, a = t1 + t2;
    }
    v[0] += a, v[1] += b, v[2] += c, v[3] += d, v[4] += e, v[5] += f, v[6] += g, v[7] += h;
}

static void plain_digest(const uint8_t *m, size_t n, uint8_t *out) {
    uint32_t v[8] = {0x6a09e667, 0xbb67ae85, 0x3c6ef372, 0xa54ff53a, 0x510e527f, 0x9b05688c, 0x1f83d9ab, 0x5be0cd19};
    size_t i = 0;
    for (; i + 64 <= n; i += 64) compress(v, m + i);
    uint8_t last[128] = {0};
    size_t rest = n - i, end = rest < 56 ? 64 : 128;
    memcpy(last, m + i, rest);
    last[rest] = 0x80;
    for (int j = 0; j < 8; j++) last[end - 1 - j] = (uint64_t)n * 8 >> (8 * j);
    for (size_t j = 0; j < end; j += 64) compress(v, last + j);
    for (int j = 0; j < 8; j++)
        for (int k = 0; k < 4; k++) out[4 * j + k] = v[j] >> (24 - 8 * k);
}

typedef void digest_fn(const uint8_t *, size_t, uint8_t *);

static double now(void) {
    struct timespec t;
    clock_gettime(CLOCK_MONOTONIC, &t);
    return t.tv_sec + 1e-9 * t.tv_nsec;
}

// Nanoseconds for one digest. The function comes through a volatile pointer, so that neither is inlined here.
static double turn(digest_fn *f, const uint8_t *m, size_t n, long times) {
    digest_fn *volatile g = f;
    uint8_t out[32];
    double from = now();
    for (long i = 0; i < times; i++) g(m, n, out);
    return (now() - from) / times * 1e9;
}

int main(void) {
    static uint8_t m[65536];
    uint32_t x = 1;
    for (size_t i = 0; i < sizeof m; i++) {
        x = x * 1103515245 + 12345;
        m[i] = x >> 16;
    }
    for (size_t n = 0; n <= sizeof m; n += n < 1000 ? 1 : 127) {
        uint8_t ours[32], plain[32];
        chhutirok_digest(m, n, ours);
        plain_digest(m, n, plain);
        if (memcmp(ours, plain, 32)) return printf("the digests of %zu bytes differ\n", n), 1;
    }
    size_t sizes[] = {65536, 88, 96};
    for (int s = 0; s < 3; s++) {
        size_t n = sizes[s];
        long times = n > 1000 ? 4 : 2000;
        double ours = 1e18, plain = 1e18;
        for (int round = 0; round < 1000; round++) {
            double a = turn(chhutirok_digest, m, n, times), b = turn(plain_digest, m, n, times);
            if (a < ours) ours = a;
            if (b < plain) plain = b;
        }
        printf("%6zu bytes: ours %.0f ns (%.0f MB/s), plain C %.0f ns (%.0f MB/s), ratio %.2f\n", n, ours, n / ours * 1e3, plain, n / plain * 1e3, plain / ours);
    }
    return 0;
}
