/* Times three functions by turns on the same messages: a line "NAME BYTES NANOSECONDS" each, the least of many rounds of processor time.
   First it sees that they agree. */
#include <stddef.h>
#include <stdint.h>
#include <stdio.h>
#include <stdlib.h>
#include <string.h>
#include <time.h>

typedef void hash_function(const uint8_t *message, size_t length, uint8_t hash[32]);

hash_function marrowkey_sha3_256, crate_sha3_256, plain_sha3_256;

static const struct {
    const char *name;
    hash_function *hash;
} functions[] = {{"marrowkey", marrowkey_sha3_256}, {"crate", crate_sha3_256}, {"plain-c", plain_sha3_256}};

enum { FUNCTIONS = sizeof functions / sizeof functions[0], LONGEST = 1 << 20, ROUNDS = 60, ROUND_NS = 4000000 };

static const size_t sizes[] = {8, 64, 136, 1024, LONGEST};

static uint8_t message[LONGEST], hash[32];

static double now(void)
{
    struct timespec t;
    clock_gettime(CLOCK_THREAD_CPUTIME_ID, &t);
    return t.tv_sec * 1e9 + t.tv_nsec;
}

static void agree(void)
{
    for (size_t n = 0; n <= 1000; n++) {
        uint8_t first[32];
        for (int f = 0; f < FUNCTIONS; f++) {
            functions[f].hash(message, n, f == 0 ? first : hash);
            if (f != 0 && memcmp(first, hash, 32) != 0) {
                fprintf(stderr, "%s and %s differ at %zu bytes\n", functions[0].name, functions[f].name, n);
                exit(1);
            }
        }
    }
}

static double timed(hash_function *f, size_t length, long calls)
{
    double start = now();
    for (long i = 0; i < calls; i++) {
        f(message, length, hash);
        message[0] ^= hash[0];
    }
    return (now() - start) / calls;
}

int main(void)
{
    for (size_t i = 0; i < LONGEST; i++)
        message[i] = (uint8_t)(i * 7 + i / 256);
    agree();
    for (size_t s = 0; s < sizeof sizes / sizeof sizes[0]; s++) {
        double least[FUNCTIONS];
        long calls = (long)(ROUND_NS / (timed(functions[0].hash, sizes[s], 3))) + 1;
        for (int round = 0; round < ROUNDS; round++)
            for (int f = 0; f < FUNCTIONS; f++) {
                double ns = timed(functions[f].hash, sizes[s], calls);
                if (round == 0 || ns < least[f])
                    least[f] = ns;
            }
        for (int f = 0; f < FUNCTIONS; f++)
            printf("%s %zu %.2f\n", functions[f].name, sizes[s], least[f]);
    }
    return 0;
}
