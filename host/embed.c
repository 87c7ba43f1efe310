/* A small host that places state and memory itself: it takes payments, loses power, and goes on
 * from what it saved. In C and in C++. */
#include <inttypes.h>
#include <stdio.h>
#include <string.h>

#include <pingvratha.h>

static pingvratha_state state;
static uint8_t memory[PINGVRATHA_TABLE_BYTES];
static uint8_t room[PINGVRATHA_MOST_BYTES];
static uint8_t snapshot[PINGVRATHA_SNAPSHOT_BYTES];
static size_t snapshot_length;
static uint64_t now = 1000;

/* Numbers that look random; the node asks no more of them. */
static const uint32_t *randoms(void) {
    static uint32_t numbers[PINGVRATHA_MOST_ENDPOINTS] = {1, 2, 3, 4};
    for (int i = 0; i < PINGVRATHA_MOST_ENDPOINTS; i++)
        numbers[i] = numbers[i] * 1664525u + 1013904223u;
    return numbers;
}

static void begin(uint32_t own) {
    pingvratha_done done = pingvratha_begin(state, memory, sizeof memory, own, now, randoms());
    state = done.state;
    printf("begin: %" PRIu32 "\n", done.number);
}

static void save(void) {
    pingvratha_saved saved = pingvratha_save(
        state, memory, sizeof memory, snapshot, sizeof snapshot, now);
    snapshot_length = saved.length;
    printf("  save: %" PRIu32 ", %zu bytes\n", saved.number, saved.length);
}

/* A payment counts once it is saved, so nothing is sent before. */
static void pay(uint32_t household, uint32_t receipt, int32_t amount) {
    pingvratha_done done = pingvratha_pay(
        state, memory, sizeof memory, now, household, receipt, amount, randoms());
    state = done.state;
    printf("pay %" PRIu32 " %" PRIu32 " %" PRId32 ": %" PRIu32 "\n",
           household, receipt, amount, done.number);
    if (done.number == 0)
        save();
}

/* The datagrams that go out until a reading, with a tick on each endpoint every 50 ms. */
static int ticks_until(uint64_t end) {
    int sent = 0;
    for (; now < end; now += 50)
        for (uint32_t endpoint = 1; endpoint <= PINGVRATHA_MOST_ENDPOINTS; endpoint++) {
            pingvratha_sent tick = pingvratha_tick(
                state, memory, sizeof memory, room, sizeof room, now, endpoint, randoms());
            state = tick.state;
            sent += tick.length > 0;
        }
    return sent;
}

static void total(uint32_t household) {
    pingvratha_summed total = pingvratha_total(state, memory, sizeof memory, now, household);
    printf("total %" PRIu32 ": %" PRIu32 ", %" PRId64 " cents\n",
           household, total.number, total.value);
}

static void totals(void) {
    total(17);
    total(42);
    total(0);
    pingvratha_summed sum = pingvratha_sum(state, memory, sizeof memory, now);
    pingvratha_marked marked = pingvratha_marks(state, memory, sizeof memory, now);
    pingvratha_extent data = pingvratha_show(state, memory, sizeof memory, 7);
    printf("sum: %" PRId64 " cents, %zu node in reach, %zu bytes of ours\n",
           sum.value, marked.count, data.length);
}

/* All is lost but the snapshot. */
static void lose_power(void) {
    state = pingvratha_blank();
    memset(memory, 0, sizeof memory);
    now = 0;
}

static void resume(size_t lent) {
    pingvratha_done done = pingvratha_resume(
        state, memory, lent, snapshot, snapshot_length, now, randoms());
    state = done.state;
    printf("resume: %" PRIu32 "\n", done.number);
}

int main(void) {
    state = pingvratha_blank();
    begin(7);
    pay(17, 300, 1250);
    pay(42, 301, 99);
    pay(17, 302, -250);
    pay(17, 300, 1250);
    printf("sent in half a second: %d\n", ticks_until(now + 500));
    totals();
    lose_power();
    resume(sizeof memory - 1);
    resume(sizeof memory);
    totals();
    return 0;
}
