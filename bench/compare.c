// Compares the two functions: their results on many lengths, then their speed.
#include "sha256.h"

#include <stdio.h>
#include <string.h>
#include <time.h>

enum {
    LENGTHS = 5000,         // lengths on which the results are compared: 0 to LENGTHS - 1
    BYTES_A_RUN = 1 << 16,  // bytes hashed in one timed run: few, so that many runs are undisturbed
    RUNS = 4000,            // runs of each function, of which the fastest counts
};

typedef void Hash(const uint8_t *m, size_t n, uint8_t out[32]);

static uint8_t message[LENGTHS];

static double seconds(void) {
    struct timespec t;
    clock_gettime(CLOCK_MONOTONIC, &t);
    return (double)t.tv_sec + (double)t.tv_nsec * 1e-9;
}

static int differing_lengths(void) {
    int differ = 0;
    for (size_t n = 0; n < LENGTHS; n++) {
        uint8_t ours[32], theirs[32];
        pingvratha_sha256(message, n, ours);
        portable_sha256(message, n, theirs);
        differ += memcmp(ours, theirs, 32) != 0;
    }
    return differ;
}

// One run over messages of n bytes; each message starts with the digest before it.
static double run(Hash *hash, size_t n) {
    double start = seconds();
    for (size_t done = 0; done < BYTES_A_RUN; done += n) {
        uint8_t digest[32];
        hash(message, n, digest);
        memcpy(message, digest, 32);
    }
    return seconds() - start;
}

// The fastest runs of both, taken in turn, so that a busy machine slows neither more than the other.
static double print_speed(size_t n) {
    double ours = 1e9, theirs = 1e9;
    for (int i = 0; i < RUNS; i++) {
        double t = run(pingvratha_sha256, n);
        double u = run(portable_sha256, n);
        ours = t < ours ? t : ours;
        theirs = u < theirs ? u : theirs;
    }
    size_t bytes = (BYTES_A_RUN + n - 1) / n * n;
    printf("%5zu bytes: ours %4.0f MB/s, C %4.0f MB/s, ratio %.2f\n", n, (double)bytes / ours / 1e6,
           (double)bytes / theirs / 1e6, theirs / ours);
    return theirs / ours;
}

int main(void) {
    for (size_t i = 0; i < LENGTHS; i++)
        message[i] = (uint8_t)(i * 2654435761u >> 13);
    int differ = differing_lengths();
    printf("%d lengths compared, %d differ\n", LENGTHS, differ);
    print_speed(64);
    double ratio = print_speed(640);
    print_speed(1024);
    print_speed(4096);
    printf("goal, at least 0.90 at 640 bytes: %s\n", ratio < 0.9 ? "missed" : "met");
    return differ != 0;
}
