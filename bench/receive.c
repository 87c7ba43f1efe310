/* What a datagram with a new statement of 1,024 bytes costs, in times of hashing those bytes with our own SHA-256. The least possible is 1: the digest has
 * to be worked out. Both take turns, and the medians of the rounds count. */
#include <stdio.h>
#include <stdlib.h>
#include <string.h>
#include <time.h>

#include "../include/pingvratha.h"

void pingvratha_sha256(const uint8_t *message, size_t length, uint8_t digest[32]);

enum { DATA = 1024, CALLS = 2000, ROUNDS = 31 };

static uint8_t table[PINGVRATHA_TABLE_BYTES], room[PINGVRATHA_MOST_BYTES], datagram[32 + DATA];
static pingvratha_state state;
static uint32_t number;

static void put32(uint8_t *at, uint32_t x) {
    for (int i = 0; i < 4; i++) at[i] = (uint8_t)(x >> (24 - 8 * i));
}

/* A Node State of node 2 with this number: 128 TLVs of ascending types, the number in each. */
static void state_tlv(uint32_t seq) {
    uint8_t *data = datagram + 32, digest[32];
    for (uint32_t i = 0; i < DATA / 8; i++) {
        put32(data + 8 * i, (1000 + i) << 16 | 4);
        put32(data + 8 * i + 4, seq);
    }
    pingvratha_sha256(data, DATA, digest);
    put32(datagram, 5u << 16 | (28 + DATA));
    put32(datagram + 4, 2);
    put32(datagram + 8, seq);
    put32(datagram + 12, 0);
    memcpy(datagram + 16, digest, 16);
}

static double seconds(void) {
    struct timespec t;
    clock_gettime(CLOCK_PROCESS_CPUTIME_ID, &t);
    return (double)t.tv_sec + 1e-9 * (double)t.tv_nsec;
}

static double receive_round(void) {
    const uint32_t randoms[4] = {1, 2, 3, 4};
    double sum = 0;
    for (int i = 0; i < CALLS; i++) {
        state_tlv(++number);
        double start = seconds();
        pingvratha_answer a = pingvratha_receive(state, table, sizeof table, room, sizeof room, datagram, sizeof datagram, 1, 1, false, randoms);
        sum += seconds() - start;
        if (a.number != 0 || a.state.table.count != 2 || a.state.table.entries[1].seq != number) exit(1);
        state = a.state;
    }
    return sum;
}

static double hash_round(void) {
    uint8_t digest[32];
    double sum = 0;
    for (int i = 0; i < CALLS; i++) {
        datagram[40] = (uint8_t)i;
        double start = seconds();
        pingvratha_sha256(datagram + 32, DATA, digest);
        sum += seconds() - start;
        datagram[41] ^= digest[0];
    }
    return sum;
}

static int by_size(const void *a, const void *b) {
    double x = *(const double *)a, y = *(const double *)b;
    return (x > y) - (x < y);
}

int main(void) {
    const uint32_t randoms[4] = {1, 2, 3, 4};
    double ratios[ROUNDS];
    state = pingvratha_begin(pingvratha_blank(), table, sizeof table, 1, 0, randoms).state;
    for (int i = 0; i < ROUNDS; i++) ratios[i] = receive_round() / hash_round();
    qsort(ratios, ROUNDS, sizeof ratios[0], by_size);
    printf("receive of a new 1,024-byte statement: %.2f times our SHA-256 of 1,024 bytes\n", ratios[ROUNDS / 2]);
    return 0;
}
