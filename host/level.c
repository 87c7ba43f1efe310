/* Two nodes in one process: they meet and come level, one chooses how often it is to be heard, takes
 * a payment and saves it, loses power and goes on, and at last is gone. In C and in C++. */
#include <inttypes.h>
#include <stdio.h>
#include <stdlib.h>
#include <string.h>

#include <pingvratha.h>

/* A link between endpoint 1 of one node and endpoint 1 of the other. A node of zeros is blank. */
static pingvratha_node nodes[2];
static pingvratha_room rooms[2];
static uint64_t reading = 1000;

/* Numbers that look random, and are the same in each run. */
static pingvratha_randoms draw(void) {
    static uint32_t seed = 1;
    pingvratha_randoms randoms;
    for (int i = 0; i < PINGVRATHA_MOST_ENDPOINTS; i++) {
        seed = seed * 1664525u + 1013904223u;
        randoms.numbers[i] = seed;
    }
    return randoms;
}

static void expect(uint32_t number) {
    if (number == PINGVRATHA_ACCEPTED)
        return;
    fprintf(stderr, "refused: %s\n", pingvratha_words(number));
    exit(1);
}

/* A datagram to a node, its reply to the other, and so on until there is none. */
static void deliver(int to, const uint8_t *datagram, size_t length) {
    bool unicast = false;
    while (length > 0) {
        pingvratha_node_answer answer = pingvratha_node_receive(
            &nodes[to], &rooms[to], datagram, length, reading, 1, unicast, draw());
        expect(answer.number);
        datagram = rooms[to].bytes;
        length = answer.length;
        to = 1 - to;
        unicast = true;
    }
}

/* What is due at a node; the other hears it unless it is gone. */
static void tick(int from, bool alone) {
    for (uint32_t endpoint = 1; endpoint <= PINGVRATHA_MOST_ENDPOINTS; endpoint++) {
        pingvratha_node_sent sent = pingvratha_node_tick(
            &nodes[from], &rooms[from], reading, endpoint, draw());
        expect(sent.number);
        if (endpoint == 1 && !alone)
            deliver(1 - from, rooms[from].bytes, sent.length);
    }
}

/* Both reach both, and hold the same. */
static bool is_level(void) {
    pingvratha_marked ours = pingvratha_node_marks(&nodes[0], reading);
    pingvratha_marked theirs = pingvratha_node_marks(&nodes[1], reading);
    expect(ours.number);
    expect(theirs.number);
    return ours.count == 2 && theirs.count == 2
        && memcmp(ours.digest, theirs.digest, sizeof ours.digest) == 0;
}

static void come_level(void) {
    uint64_t start = reading;
    while (!is_level()) {
        reading += 50;
        tick(0, false);
        tick(1, false);
    }
    printf("level after %" PRIu64 " ms, steps to the farthest node: %zu\n",
           reading - start, pingvratha_node_marks(&nodes[0], reading).levels);
}

static void print_totals(int at) {
    pingvratha_summed total = pingvratha_node_total(&nodes[at], reading, 17);
    pingvratha_summed sum = pingvratha_node_sum(&nodes[at], reading);
    pingvratha_extent data = pingvratha_node_show(&nodes[at], 7);
    expect(total.number);
    expect(sum.number);
    expect(pingvratha_node_show_refusal(&nodes[at], 7));
    printf("box %" PRIu32 ": household 17 has %" PRId64 " cents, all have %" PRId64
           "; %zu bytes of box 7\n",
           nodes[at].state.own, total.value, sum.value, data.length);
}

/* A minute without the other: it is out of reach, and its data stay until they are dropped. */
static void go_on_alone(int at) {
    for (uint64_t end = reading + 60000; reading < end; reading += 50)
        tick(at, true);
    print_totals(at);
    expect(pingvratha_node_purge(&nodes[at], reading, draw()));
    printf("purged: %s\n", pingvratha_words(pingvratha_node_show_refusal(&nodes[at], 7)));
}

int main(void) {
    static pingvratha_snapshot book;
    printf("blank: %zu node in reach\n", pingvratha_node_marks(&nodes[0], reading).count);
    for (int at = 0; at < 2; at++)
        expect(pingvratha_node_begin(&nodes[at], 7 + (uint32_t)at, reading, draw()));
    come_level();

    expect(pingvratha_node_keep_alive(&nodes[0], reading, 1, 5000, draw()));
    uint32_t never = pingvratha_node_keep_alive(&nodes[0], reading, 1, 0, draw());
    printf("heard every 5000 ms; every 0 ms: %s\n", pingvratha_words(never));
    come_level();

    expect(pingvratha_node_pay(&nodes[0], reading, 17, 4711, 1250, draw()));
    pingvratha_saved saved = pingvratha_node_save(&nodes[0], &book, reading);
    expect(saved.number);
    printf("paid, and saved in %zu bytes\n", saved.length);
    uint32_t again = pingvratha_node_pay(&nodes[0], reading, 17, 4711, 1250, draw());
    printf("paid again: %s\n", pingvratha_words(again));
    come_level();
    print_totals(1);

    pingvratha_node_blank(&nodes[0]);
    expect(pingvratha_node_resume(&nodes[0], book.bytes, saved.length, reading, draw()));
    print_totals(0);
    come_level();
    print_totals(1);
    go_on_alone(1);
    return 0;
}
