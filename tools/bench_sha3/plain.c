/* SHA3-256 in plain C, with the rounds' lanes written out. The kit's clang comes with no headers. */
typedef __SIZE_TYPE__ size_t;
typedef __UINT8_TYPE__ uint8_t;
typedef __UINT64_TYPE__ uint64_t;
#define memcpy __builtin_memcpy

static const uint64_t round_constants[24] = {
    0x0000000000000001, 0x0000000000008082, 0x800000000000808a, 0x8000000080008000, 0x000000000000808b, 0x0000000080000001,
    0x8000000080008081, 0x8000000000008009, 0x000000000000008a, 0x0000000000000088, 0x0000000080008009, 0x000000008000000a,
    0x000000008000808b, 0x800000000000008b, 0x8000000000008089, 0x8000000000008003, 0x8000000000008002, 0x8000000000000080,
    0x000000000000800a, 0x800000008000000a, 0x8000000080008081, 0x8000000000008080, 0x0000000080000001, 0x8000000080008008,
};

static inline uint64_t rotate(uint64_t x, unsigned n) { return n ? (x << n) | (x >> (64 - n)) : x; }

#define COLUMN(x) (a[x] ^ a[x + 5] ^ a[x + 10] ^ a[x + 15] ^ a[x + 20])
#define MOVED(i, n) rotate(a[i] ^ d[(i) % 5], n)
#define CHI(y, x) (b[y + x] ^ (~b[y + (x + 1) % 5] & b[y + (x + 2) % 5]))
#define ROW(y) CHI(y, 0), CHI(y, 1), CHI(y, 2), CHI(y, 3), CHI(y, 4)

static void permute(uint64_t a[25])
{
    for (int round = 0; round < 24; round++) {
        const uint64_t c[5] = {COLUMN(0), COLUMN(1), COLUMN(2), COLUMN(3), COLUMN(4)};
        const uint64_t d[5] = {c[4] ^ rotate(c[1], 1), c[0] ^ rotate(c[2], 1), c[1] ^ rotate(c[3], 1), c[2] ^ rotate(c[4], 1),
                               c[3] ^ rotate(c[0], 1)};
        const uint64_t b[25] = {
            MOVED(0, 0),   MOVED(6, 44), MOVED(12, 43), MOVED(18, 21), MOVED(24, 14),
            MOVED(3, 28),  MOVED(9, 20), MOVED(10, 3),  MOVED(16, 45), MOVED(22, 61),
            MOVED(1, 1),   MOVED(7, 6),  MOVED(13, 25), MOVED(19, 8),  MOVED(20, 18),
            MOVED(4, 27),  MOVED(5, 36), MOVED(11, 10), MOVED(17, 15), MOVED(23, 56),
            MOVED(2, 62),  MOVED(8, 55), MOVED(14, 39), MOVED(15, 41), MOVED(21, 2),
        };
        const uint64_t e[25] = {ROW(0), ROW(5), ROW(10), ROW(15), ROW(20)};
        memcpy(a, e, sizeof e);
        a[0] ^= round_constants[round];
    }
}

static void absorb(uint64_t a[25], const uint8_t block[136])
{
    for (int i = 0; i < 17; i++) {
        uint64_t lane;
        memcpy(&lane, block + 8 * i, 8);
        a[i] ^= lane;
    }
    permute(a);
}

void plain_sha3_256(const uint8_t *message, size_t length, uint8_t hash[32])
{
    uint64_t a[25] = {0};
    for (; length >= 136; message += 136, length -= 136)
        absorb(a, message);
    uint8_t last[136] = {0};
    memcpy(last, message, length);
    last[length] = 0x06;
    last[135] |= 0x80;
    absorb(a, last);
    memcpy(hash, a, 32);
}
