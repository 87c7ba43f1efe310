/* A ledger node (DNCP, RFC 7787) whose every call is proved. Where a language has no slices, one
 * is a pointer, which is not null, and a length.
 *
 * The library owns nothing: no memory, no clock, no radio, no random numbers. A host
 *
 * - starts from the blank state, and hands each call the state and the table memory just as the
 *   last call left them. That is the one premise of the proofs. It holds for refused calls too,
 *   so nothing has to be checked before a call;
 * - lends PINGVRATHA_TABLE_BYTES of table memory to every call, PINGVRATHA_MOST_BYTES of room to
 *   receive and tick, PINGVRATHA_SNAPSHOT_BYTES to save. More is fine, less is refused with
 *   PINGVRATHA_BUFFER_TOO_SMALL. Buffers lent to one call don't overlap;
 * - gives each box an identifier of its own, for good: two boxes with one identifier replace
 *   each other's payments, and so does a box that begins anew under the one that it had;
 * - gives one random number for each endpoint with every call that changes state, new ones each
 *   time;
 * - gives the clock in milliseconds, never lower than before;
 * - ticks every endpoint, 1 to PINGVRATHA_MOST_ENDPOINTS, again and again, some ten times a
 *   second: Trickle's shortest interval is PINGVRATHA_LEAST_INTERVAL, and a keep-alive that is
 *   due may have to wait for later ticks. What a tick writes goes out by multicast on that
 *   endpoint;
 * - hands each datagram to receive, with the endpoint that it came on and whether it came by
 *   unicast. What receive writes goes back by unicast to where the datagram came from, on the
 *   same endpoint;
 * - saves after each accepted payment before anything is sent, and keeps that snapshot over a
 *   loss of power: whole or not at all, and with a checksum, for a snapshot has none. A node
 *   that resumes from an older one takes the payments since back everywhere.
 *
 * An answer's number is 0 for an accepted call, else why it is refused: the first in the order
 * given with each call that applies. A refused call gives 0 in all other fields, hands back the
 * state that came in, and writes to no buffer. Of an accepted call, the bytes of a buffer beyond
 * what is written stay.
 *
 * Calls on different states may run at the same time. A node is a box, a snapshot its saved
 * book. A node is reachable when a chain of nodes that name each other as peers leads from ours
 * to it.
 *
 * Most hosts need the calls on a node alone, pingvratha_node_begin and so on, at the end. Link
 * libpingvratha.a.
 *
 * Written by tools/bindings from the Rattle source. */
#ifndef PINGVRATHA_H
#define PINGVRATHA_H

#if !defined(__x86_64__) || !defined(__linux__)
#error "pingvratha: the library is built for x86-64 Linux"
#endif

#include <stdbool.h>
#include <stddef.h>
#include <stdint.h>

#ifdef __cplusplus
extern "C" {
#endif

/* An answer that is not looked at is warned of. */
#ifdef __GNUC__
#define PINGVRATHA_ANSWER __attribute__((warn_unused_result))
#else
#define PINGVRATHA_ANSWER
#endif

#define PINGVRATHA_VERSION "0.5.0"
#define PINGVRATHA_VERSION_MAJOR 0
#define PINGVRATHA_VERSION_MINOR 5
#define PINGVRATHA_VERSION_PATCH 0

/* ---- The figures of documents 01 and 02. */

/* Nodes held, with our own. */
#define PINGVRATHA_MOST_NODES 32

/* Bytes of node data that are accepted, and held of each node. */
#define PINGVRATHA_DATA_LIMIT 1024

/* Bytes that our own data may come to by publishing more. */
#define PINGVRATHA_PUBLISH_LIMIT 1024

/* Bytes of table memory: a slot for each node. */
#define PINGVRATHA_TABLE_BYTES 32768

/* Endpoints, numbered from 1 on. */
#define PINGVRATHA_MOST_ENDPOINTS 4

/* Peers over all endpoints. */
#define PINGVRATHA_MOST_PEERS 16

/* Bytes of a datagram at most, of what is sent at most, and of the room lent for it. */
#define PINGVRATHA_MOST_BYTES 4096

/* Bytes of a snapshot at most, and of what is lent for it. */
#define PINGVRATHA_SNAPSHOT_BYTES 33319

/* The last reading of the clock, in milliseconds. */
#define PINGVRATHA_LAST_READING UINT64_C(4611686018427387903)

/* Trickle's shortest interval, in milliseconds. */
#define PINGVRATHA_LEAST_INTERVAL UINT64_C(200)

/* Trickle's longest interval. */
#define PINGVRATHA_GREATEST_INTERVAL UINT64_C(25600)

/* Trickle's redundancy constant: so many equal digests heard make sending needless. */
#define PINGVRATHA_REDUNDANCY 1

/* Where the count of equal digests stays. */
#define PINGVRATHA_MOST_COUNT 255

/* A request for network state goes out at most once in so many milliseconds on an endpoint. */
#define PINGVRATHA_REQUEST_GAP UINT64_C(200)

/* A node this old leads no further. */
#define PINGVRATHA_AGE_LIMIT UINT64_C(4294934528)

/* Our data are published anew at this age. */
#define PINGVRATHA_REFRESH_AGE UINT64_C(4294901760)

/* The largest age that is sent or saved. */
#define PINGVRATHA_MOST_AGE UINT64_C(4294967295)

/* The keep-alive interval, in milliseconds, of an endpoint for which its node publishes no
 * Keep-Alive TLV: a peer's, and ours at first. */
#define PINGVRATHA_USUAL_INTERVAL 20000

/* The shortest keep-alive interval that can be chosen. */
#define PINGVRATHA_LEAST_KEEP_ALIVE 1

/* The longest keep-alive interval that can be chosen. */
#define PINGVRATHA_MOST_KEEP_ALIVE 600000

/* The longest delay of a keep-alive, in milliseconds. */
#define PINGVRATHA_MOST_DELAY UINT64_C(100)

/* What a reclaimed sequence number gains. */
#define PINGVRATHA_RECLAIM_STEP 1000

/* Bytes of a Peer TLV. */
#define PINGVRATHA_PEER_BYTES 16

/* Bytes of a Keep-Alive TLV. */
#define PINGVRATHA_KEEP_ALIVE_BYTES 12

/* The first household. */
#define PINGVRATHA_LEAST_HOUSEHOLD 1

/* The last household. */
#define PINGVRATHA_MOST_HOUSEHOLD 9999

/* ---- The number of an answer, in the words of documents 01 and 02. */

typedef enum pingvratha_number {
    PINGVRATHA_ACCEPTED = 0, /* accepted */
    PINGVRATHA_CLOCK_TOO_HIGH = 1, /* clock above 2^62 - 1 */
    PINGVRATHA_CLOCK_BACK = 2, /* clock below the last accepted reading */
    PINGVRATHA_NO_SUCH_ENDPOINT = 3, /* endpoint not 1 to 4 */
    PINGVRATHA_BUFFER_TOO_SMALL = 4, /* a lent buffer is below its figure */
    PINGVRATHA_DATAGRAM_TOO_LONG = 5, /* datagram over 4,096 bytes */
    PINGVRATHA_DATAGRAM_MALFORMED = 6, /* datagram is not a row of whole TLVs with zero padding */
    PINGVRATHA_NO_SUCH_HOUSEHOLD = 7, /* household outside 1 to 9,999 */
    PINGVRATHA_PAID_ALREADY = 8, /* this very payment stands in our data already */
    /* The payment doesn't fit in our 1,024 bytes, or no room in our data for the TLV. */
    PINGVRATHA_DATA_FULL = 9,
    PINGVRATHA_NO_SUCH_NODE = 10, /* no such box in the table */
    PINGVRATHA_NOT_A_SNAPSHOT = 11, /* not a saved book */
    PINGVRATHA_NO_SUCH_INTERVAL = 12 /* an interval of 0 or above 600,000 */
} pingvratha_number;

/* These words. */
static inline const char *pingvratha_words(uint32_t number) {
    switch (number) {
    case PINGVRATHA_ACCEPTED:
        return "accepted";
    case PINGVRATHA_CLOCK_TOO_HIGH:
        return "clock above 2^62 - 1";
    case PINGVRATHA_CLOCK_BACK:
        return "clock below the last accepted reading";
    case PINGVRATHA_NO_SUCH_ENDPOINT:
        return "endpoint not 1 to 4";
    case PINGVRATHA_BUFFER_TOO_SMALL:
        return "a lent buffer is below its figure";
    case PINGVRATHA_DATAGRAM_TOO_LONG:
        return "datagram over 4,096 bytes";
    case PINGVRATHA_DATAGRAM_MALFORMED:
        return "datagram is not a row of whole TLVs with zero padding";
    case PINGVRATHA_NO_SUCH_HOUSEHOLD:
        return "household outside 1 to 9,999";
    case PINGVRATHA_PAID_ALREADY:
        return "this very payment stands in our data already";
    case PINGVRATHA_DATA_FULL:
        return "the payment doesn't fit in our 1,024 bytes, or no room in our data for the TLV";
    case PINGVRATHA_NO_SUCH_NODE:
        return "no such box in the table";
    case PINGVRATHA_NOT_A_SNAPSHOT:
        return "not a saved book";
    case PINGVRATHA_NO_SUCH_INTERVAL:
        return "an interval of 0 or above 600,000";
    default:
        return "no such number";
    }
}

/* ---- The state. */

/* What is held of one node. Its data are the len bytes from slot * PINGVRATHA_DATA_LIMIT on in
 * the table memory. */
typedef struct pingvratha_entry {
    uint32_t id;
    uint32_t seq; /* the sequence number */
    uint32_t age; /* in milliseconds, at the reading since */
    uint16_t len;
    uint16_t slot;
    uint64_t since;
    uint8_t hash[16]; /* H of the data */
} pingvratha_entry;

/* The nodes held, ascending by identifier: the first count entries. */
typedef struct pingvratha_table {
    size_t count;
    pingvratha_entry entries[PINGVRATHA_MOST_NODES];
} pingvratha_table;

/* A peer: a node on a link of ours. */
typedef struct pingvratha_peer {
    uint32_t node;
    uint32_t theirs; /* its endpoint */
    uint32_t ours; /* our endpoint */
    uint64_t contact; /* the reading of the last contact */
} pingvratha_peer;

/* The peers, in the order in which they came: the first count of the list. */
typedef struct pingvratha_peers {
    size_t count;
    pingvratha_peer list[PINGVRATHA_MOST_PEERS];
} pingvratha_peers;

/* When an endpoint sends: at start + point, unless an equal digest was heard since start. */
typedef struct pingvratha_trickle {
    uint64_t start; /* the reading at which the interval began */
    uint64_t point;
    uint64_t interval;
    uint32_t count; /* equal digests heard in it */
    bool spent; /* the send point has passed */
} pingvratha_trickle;

/* One of our endpoints. */
typedef struct pingvratha_endpoint {
    pingvratha_trickle trickle;
    uint64_t next; /* the reading from which network state may be requested again */
    uint32_t keep; /* the keep-alive interval, in milliseconds */
    uint64_t quiet; /* the reading of the last sending plus the delay that was fixed then */
} pingvratha_endpoint;

/* The state that a call gets and leaves. A host keeps it and need not look into it; node data
 * stand in the lent table memory. */
typedef struct pingvratha_state {
    uint32_t own; /* our identifier */
    uint64_t last; /* the last accepted reading of the clock */
    pingvratha_table table;
    pingvratha_peers peers;
    pingvratha_endpoint endpoints[PINGVRATHA_MOST_ENDPOINTS];
    uint8_t digest[16]; /* the network digest at that reading */
} pingvratha_state;

/* ---- The answers. */

/* What begin, resume, pay and purge answer. */
typedef struct pingvratha_done {
    uint32_t number;
    pingvratha_state state;
} pingvratha_done;

/* What receive answers. */
typedef struct pingvratha_answer {
    uint32_t number;
    pingvratha_state state;
    size_t length; /* bytes of the reply, at the front of the room */
    uint32_t omitted; /* replies left out because the room is full; the peer asks again */
    uint32_t dropped; /* new peers and nodes dropped because there is no place for them */
} pingvratha_answer;

/* What tick answers. */
typedef struct pingvratha_sent {
    uint32_t number;
    pingvratha_state state;
    size_t length; /* bytes to send, at the front of the room */
} pingvratha_sent;

/* What total and sum answer. */
typedef struct pingvratha_summed {
    uint32_t number;
    int64_t value; /* cents */
    uint32_t unread; /* payments of reachable nodes that can't be read, of whatever household */
} pingvratha_summed;

/* What marks answers. */
typedef struct pingvratha_marked {
    uint32_t number;
    size_t count;
    /* The number of the last level: how many steps it takes from our own node, level 0, to the
     * farthest reachable one. The marking passes over the table once more than that. */
    size_t levels;
    /* The first count are the identifiers of the reachable nodes, ascending; the others are 0. */
    uint32_t nodes[PINGVRATHA_MOST_NODES];
    uint8_t digest[16]; /* the network digest */
} pingvratha_marked;

/* What save answers. */
typedef struct pingvratha_saved {
    uint32_t number;
    size_t length; /* bytes of the snapshot, at the front of what was lent for it */
} pingvratha_saved;

/* What show answers: a part of the table memory. */
typedef struct pingvratha_extent {
    size_t start;
    size_t length;
} pingvratha_extent;

/* ---- Calls that change state. */

/* The state to start from, with whatever table memory: node 0, begun at reading 0 with random
 * numbers 0.
 *
 * Never refused. */
PINGVRATHA_ANSWER pingvratha_state pingvratha_blank(void);

/* Begins with our node alone: empty data, sequence number 0, no peers. Also over a running node
 * and at an earlier reading; all that was held is gone.
 *
 * Refusals in order: PINGVRATHA_CLOCK_TOO_HIGH, PINGVRATHA_BUFFER_TOO_SMALL. */
PINGVRATHA_ANSWER pingvratha_done pingvratha_begin(
    pingvratha_state state, const uint8_t *memory, size_t memory_length, uint32_t own,
    uint64_t clock, const uint32_t randoms[PINGVRATHA_MOST_ENDPOINTS]);

/* Goes on from a snapshot, at whatever reading. Our peers are unknown at first, so that only our
 * own node is reachable, and our data are published anew. Keep-alive intervals are
 * PINGVRATHA_USUAL_INTERVAL again.
 *
 * Refusals in order: PINGVRATHA_CLOCK_TOO_HIGH, PINGVRATHA_BUFFER_TOO_SMALL,
 * PINGVRATHA_NOT_A_SNAPSHOT. */
PINGVRATHA_ANSWER pingvratha_done pingvratha_resume(
    pingvratha_state state, uint8_t *memory, size_t memory_length, const uint8_t *snapshot,
    size_t snapshot_length, uint64_t clock, const uint32_t randoms[PINGVRATHA_MOST_ENDPOINTS]);

/* Takes in a datagram that came on the endpoint, by unicast or else by multicast, and writes the
 * reply to the front of the room; length 0 means that there is none.
 *
 * Refusals in order: PINGVRATHA_CLOCK_TOO_HIGH, PINGVRATHA_CLOCK_BACK,
 * PINGVRATHA_NO_SUCH_ENDPOINT, PINGVRATHA_BUFFER_TOO_SMALL, PINGVRATHA_DATAGRAM_TOO_LONG,
 * PINGVRATHA_DATAGRAM_MALFORMED. */
PINGVRATHA_ANSWER pingvratha_answer pingvratha_receive(
    pingvratha_state state, uint8_t *memory, size_t memory_length, uint8_t *room,
    size_t room_length, const uint8_t *datagram, size_t datagram_length, uint64_t clock,
    uint32_t endpoint, bool unicast, const uint32_t randoms[PINGVRATHA_MOST_ENDPOINTS]);

/* Does what is due on the endpoint: removes peers that fell silent, publishes our data anew
 * before it is too old, and writes what is to be sent to the front of the room; length 0 means
 * that there is nothing. At one reading a second and a third tick may still have something to
 * do, a fourth never.
 *
 * Refusals in order: PINGVRATHA_CLOCK_TOO_HIGH, PINGVRATHA_CLOCK_BACK,
 * PINGVRATHA_NO_SUCH_ENDPOINT, PINGVRATHA_BUFFER_TOO_SMALL. */
PINGVRATHA_ANSWER pingvratha_sent pingvratha_tick(
    pingvratha_state state, uint8_t *memory, size_t memory_length, uint8_t *room,
    size_t room_length, uint64_t clock, uint32_t endpoint,
    const uint32_t randoms[PINGVRATHA_MOST_ENDPOINTS]);

/* Chooses the endpoint's keep-alive interval in milliseconds: when ticks of the endpoint have
 * sent nothing for so long, and a random delay of up to PINGVRATHA_MOST_DELAY, one sends. Our
 * data tell it to the peers, who remove us when they have not heard us for 2.1 times as long;
 * unless it is PINGVRATHA_USUAL_INTERVAL, as at first, it takes 12 bytes. begin and resume set
 * that one again. With ten ticks a second choose 5000 or more: with a shorter one peers may
 * remove us though nobody is gone.
 *
 * Refusals in order: PINGVRATHA_CLOCK_TOO_HIGH, PINGVRATHA_CLOCK_BACK,
 * PINGVRATHA_NO_SUCH_ENDPOINT, PINGVRATHA_NO_SUCH_INTERVAL, PINGVRATHA_BUFFER_TOO_SMALL,
 * PINGVRATHA_DATA_FULL. */
PINGVRATHA_ANSWER pingvratha_done pingvratha_keep_alive(
    pingvratha_state state, uint8_t *memory, size_t memory_length, uint64_t clock,
    uint32_t endpoint, uint32_t interval, const uint32_t randoms[PINGVRATHA_MOST_ENDPOINTS]);

/* Puts a payment, in cents, into our data, where it takes 8, 12 or 16 bytes, and publishes it.
 * Save before anything is sent. Only the same household, receipt and amount together are the
 * same payment.
 *
 * Refusals in order: PINGVRATHA_CLOCK_TOO_HIGH, PINGVRATHA_CLOCK_BACK,
 * PINGVRATHA_BUFFER_TOO_SMALL, PINGVRATHA_NO_SUCH_HOUSEHOLD, PINGVRATHA_PAID_ALREADY,
 * PINGVRATHA_DATA_FULL. */
PINGVRATHA_ANSWER pingvratha_done pingvratha_pay(
    pingvratha_state state, uint8_t *memory, size_t memory_length, uint64_t clock,
    uint32_t household, uint32_t receipt, int32_t amount,
    const uint32_t randoms[PINGVRATHA_MOST_ENDPOINTS]);

/* Drops every node that is not reachable, its payments with it, which makes place for others.
 * What is reachable again later comes again.
 *
 * Refusals in order: PINGVRATHA_CLOCK_TOO_HIGH, PINGVRATHA_CLOCK_BACK,
 * PINGVRATHA_BUFFER_TOO_SMALL. */
PINGVRATHA_ANSWER pingvratha_done pingvratha_purge(
    pingvratha_state state, const uint8_t *memory, size_t memory_length, uint64_t clock,
    const uint32_t randoms[PINGVRATHA_MOST_ENDPOINTS]);

/* ---- Calls that show, sum or save. They change nothing, the last reading included. */

/* The total of a household over all reachable nodes.
 *
 * Refusals in order: PINGVRATHA_CLOCK_TOO_HIGH, PINGVRATHA_CLOCK_BACK,
 * PINGVRATHA_BUFFER_TOO_SMALL, PINGVRATHA_NO_SUCH_HOUSEHOLD. */
PINGVRATHA_ANSWER pingvratha_summed pingvratha_total(
    pingvratha_state state, const uint8_t *memory, size_t memory_length, uint64_t clock,
    uint32_t household);

/* The sum over all households.
 *
 * Refusals in order: PINGVRATHA_CLOCK_TOO_HIGH, PINGVRATHA_CLOCK_BACK,
 * PINGVRATHA_BUFFER_TOO_SMALL. */
PINGVRATHA_ANSWER pingvratha_summed pingvratha_sum(
    pingvratha_state state, const uint8_t *memory, size_t memory_length, uint64_t clock);

/* The reachable nodes, whose payments are summed, how far they go, and the network digest.
 *
 * Refusals in order: PINGVRATHA_CLOCK_TOO_HIGH, PINGVRATHA_CLOCK_BACK,
 * PINGVRATHA_BUFFER_TOO_SMALL. */
PINGVRATHA_ANSWER pingvratha_marked pingvratha_marks(
    pingvratha_state state, const uint8_t *memory, size_t memory_length, uint64_t clock);

/* Writes a snapshot of all nodes held to the front of what is lent for it.
 *
 * Refusals in order: PINGVRATHA_CLOCK_TOO_HIGH, PINGVRATHA_CLOCK_BACK,
 * PINGVRATHA_BUFFER_TOO_SMALL. */
PINGVRATHA_ANSWER pingvratha_saved pingvratha_save(
    pingvratha_state state, const uint8_t *memory, size_t memory_length, uint8_t *snapshot,
    size_t snapshot_length, uint64_t clock);

/* Where a node's data stand in the table memory, reachable or not. Length 0 for empty data, and
 * for a refusal, whose number pingvratha_show_refusal gives.
 *
 * Refusals in order: PINGVRATHA_BUFFER_TOO_SMALL, PINGVRATHA_NO_SUCH_NODE. */
PINGVRATHA_ANSWER pingvratha_extent pingvratha_show(
    pingvratha_state state, const uint8_t *memory, size_t memory_length, uint32_t node);

/* The number of show with the same arguments; 0 where the data are shown.
 *
 * Refusals in order: PINGVRATHA_BUFFER_TOO_SMALL, PINGVRATHA_NO_SUCH_NODE. */
PINGVRATHA_ANSWER uint32_t pingvratha_show_refusal(
    pingvratha_state state, const uint8_t *memory, size_t memory_length, uint32_t node);

/* ---- A node: the same calls, which keep the state by themselves; what is lent has the right size
 * by its type. A node starts with pingvratha_node_blank or as zeros, and nothing but these calls
 * writes to it. They answer what the plain calls answer, without the state. A datagram or a snapshot
 * that is read stands neither in the node nor in the room. */

/* State and table memory of one node. */
typedef struct pingvratha_node {
    pingvratha_state state;
    uint8_t memory[PINGVRATHA_TABLE_BYTES];
} pingvratha_node;

/* The randoms of a call, one for each endpoint. */
typedef struct pingvratha_randoms {
    uint32_t numbers[PINGVRATHA_MOST_ENDPOINTS];
} pingvratha_randoms;

/* What receive and tick of a node write to. */
typedef struct pingvratha_room {
    uint8_t bytes[PINGVRATHA_MOST_BYTES];
} pingvratha_room;

/* What save of a node writes to. */
typedef struct pingvratha_snapshot {
    uint8_t bytes[PINGVRATHA_SNAPSHOT_BYTES];
} pingvratha_snapshot;

/* What receive of a node answers. */
typedef struct pingvratha_node_answer {
    uint32_t number;
    size_t length; /* bytes of the reply, at the front of the room */
    uint32_t omitted; /* replies left out because the room is full; the peer asks again */
    uint32_t dropped; /* new peers and nodes dropped because there is no place for them */
} pingvratha_node_answer;

/* What tick of a node answers. */
typedef struct pingvratha_node_sent {
    uint32_t number;
    size_t length; /* bytes to send, at the front of the room */
} pingvratha_node_sent;

/* As pingvratha_blank, and keeps the state. */
static inline void pingvratha_node_blank(pingvratha_node *self) {
    pingvratha_state state = pingvratha_blank();
    self->state = state;
}

/* A node of zeros counts as blank: every state of the library has an entry, our own. */
static inline bool pingvratha_node_is_zeros(const pingvratha_node *self) {
    return self->state.table.count == 0;
}

/* As pingvratha_begin, and keeps the state. */
PINGVRATHA_ANSWER static inline uint32_t pingvratha_node_begin(
    pingvratha_node *self, uint32_t own, uint64_t clock, pingvratha_randoms randoms) {
    if (pingvratha_node_is_zeros(self))
        pingvratha_node_blank(self);
    pingvratha_done answer = pingvratha_begin(
        self->state, self->memory, sizeof self->memory, own, clock, randoms.numbers);
    self->state = answer.state;
    return answer.number;
}

/* As pingvratha_resume, and keeps the state. */
PINGVRATHA_ANSWER static inline uint32_t pingvratha_node_resume(
    pingvratha_node *self, const uint8_t *snapshot, size_t snapshot_length, uint64_t clock,
    pingvratha_randoms randoms) {
    if (pingvratha_node_is_zeros(self))
        pingvratha_node_blank(self);
    pingvratha_done answer = pingvratha_resume(
        self->state, self->memory, sizeof self->memory, snapshot, snapshot_length, clock,
        randoms.numbers);
    self->state = answer.state;
    return answer.number;
}

/* As pingvratha_receive, and keeps the state. */
PINGVRATHA_ANSWER static inline pingvratha_node_answer pingvratha_node_receive(
    pingvratha_node *self, pingvratha_room *room, const uint8_t *datagram, size_t datagram_length,
    uint64_t clock, uint32_t endpoint, bool unicast, pingvratha_randoms randoms) {
    if (pingvratha_node_is_zeros(self))
        pingvratha_node_blank(self);
    pingvratha_answer answer = pingvratha_receive(
        self->state, self->memory, sizeof self->memory, room->bytes, sizeof room->bytes, datagram,
        datagram_length, clock, endpoint, unicast, randoms.numbers);
    self->state = answer.state;
    pingvratha_node_answer rest;
    rest.number = answer.number;
    rest.length = answer.length;
    rest.omitted = answer.omitted;
    rest.dropped = answer.dropped;
    return rest;
}

/* As pingvratha_tick, and keeps the state. */
PINGVRATHA_ANSWER static inline pingvratha_node_sent pingvratha_node_tick(
    pingvratha_node *self, pingvratha_room *room, uint64_t clock, uint32_t endpoint,
    pingvratha_randoms randoms) {
    if (pingvratha_node_is_zeros(self))
        pingvratha_node_blank(self);
    pingvratha_sent answer = pingvratha_tick(
        self->state, self->memory, sizeof self->memory, room->bytes, sizeof room->bytes, clock,
        endpoint, randoms.numbers);
    self->state = answer.state;
    pingvratha_node_sent rest;
    rest.number = answer.number;
    rest.length = answer.length;
    return rest;
}

/* As pingvratha_keep_alive, and keeps the state. */
PINGVRATHA_ANSWER static inline uint32_t pingvratha_node_keep_alive(
    pingvratha_node *self, uint64_t clock, uint32_t endpoint, uint32_t interval,
    pingvratha_randoms randoms) {
    if (pingvratha_node_is_zeros(self))
        pingvratha_node_blank(self);
    pingvratha_done answer = pingvratha_keep_alive(
        self->state, self->memory, sizeof self->memory, clock, endpoint, interval, randoms.numbers);
    self->state = answer.state;
    return answer.number;
}

/* As pingvratha_pay, and keeps the state. */
PINGVRATHA_ANSWER static inline uint32_t pingvratha_node_pay(
    pingvratha_node *self, uint64_t clock, uint32_t household, uint32_t receipt, int32_t amount,
    pingvratha_randoms randoms) {
    if (pingvratha_node_is_zeros(self))
        pingvratha_node_blank(self);
    pingvratha_done answer = pingvratha_pay(
        self->state, self->memory, sizeof self->memory, clock, household, receipt, amount,
        randoms.numbers);
    self->state = answer.state;
    return answer.number;
}

/* As pingvratha_purge, and keeps the state. */
PINGVRATHA_ANSWER static inline uint32_t pingvratha_node_purge(
    pingvratha_node *self, uint64_t clock, pingvratha_randoms randoms) {
    if (pingvratha_node_is_zeros(self))
        pingvratha_node_blank(self);
    pingvratha_done answer = pingvratha_purge(
        self->state, self->memory, sizeof self->memory, clock, randoms.numbers);
    self->state = answer.state;
    return answer.number;
}

/* As pingvratha_total. */
PINGVRATHA_ANSWER static inline pingvratha_summed pingvratha_node_total(
    const pingvratha_node *self, uint64_t clock, uint32_t household) {
    return pingvratha_total(
        pingvratha_node_is_zeros(self) ? pingvratha_blank() : self->state, self->memory,
        sizeof self->memory, clock, household);
}

/* As pingvratha_sum. */
PINGVRATHA_ANSWER static inline pingvratha_summed pingvratha_node_sum(
    const pingvratha_node *self, uint64_t clock) {
    return pingvratha_sum(
        pingvratha_node_is_zeros(self) ? pingvratha_blank() : self->state, self->memory,
        sizeof self->memory, clock);
}

/* As pingvratha_marks. */
PINGVRATHA_ANSWER static inline pingvratha_marked pingvratha_node_marks(
    const pingvratha_node *self, uint64_t clock) {
    return pingvratha_marks(
        pingvratha_node_is_zeros(self) ? pingvratha_blank() : self->state, self->memory,
        sizeof self->memory, clock);
}

/* As pingvratha_save. */
PINGVRATHA_ANSWER static inline pingvratha_saved pingvratha_node_save(
    const pingvratha_node *self, pingvratha_snapshot *snapshot, uint64_t clock) {
    return pingvratha_save(
        pingvratha_node_is_zeros(self) ? pingvratha_blank() : self->state, self->memory,
        sizeof self->memory, snapshot->bytes, sizeof snapshot->bytes, clock);
}

/* As pingvratha_show. */
PINGVRATHA_ANSWER static inline pingvratha_extent pingvratha_node_show(
    const pingvratha_node *self, uint32_t node) {
    return pingvratha_show(
        pingvratha_node_is_zeros(self) ? pingvratha_blank() : self->state, self->memory,
        sizeof self->memory, node);
}

/* As pingvratha_show_refusal. */
PINGVRATHA_ANSWER static inline uint32_t pingvratha_node_show_refusal(
    const pingvratha_node *self, uint32_t node) {
    return pingvratha_show_refusal(
        pingvratha_node_is_zeros(self) ? pingvratha_blank() : self->state, self->memory,
        sizeof self->memory, node);
}

/* ---- Where a layout is not the library's, this does not compile. */

#if defined(__cplusplus)
#define PINGVRATHA_SAME(name, is, wanted) static_assert((is) == (wanted), #name)
#elif defined(__STDC_VERSION__) && __STDC_VERSION__ >= 201112L
#define PINGVRATHA_SAME(name, is, wanted) _Static_assert((is) == (wanted), #name)
#else
#define PINGVRATHA_SAME(name, is, wanted) typedef char name[(is) == (wanted) ? 1 : -1]
#endif

PINGVRATHA_SAME(pingvratha_same_size, sizeof(size_t), 8);
PINGVRATHA_SAME(pingvratha_same_entry, sizeof(pingvratha_entry), 40);
PINGVRATHA_SAME(pingvratha_same_entry_id, offsetof(pingvratha_entry, id), 0);
PINGVRATHA_SAME(pingvratha_same_entry_seq, offsetof(pingvratha_entry, seq), 4);
PINGVRATHA_SAME(pingvratha_same_entry_age, offsetof(pingvratha_entry, age), 8);
PINGVRATHA_SAME(pingvratha_same_entry_len, offsetof(pingvratha_entry, len), 12);
PINGVRATHA_SAME(pingvratha_same_entry_slot, offsetof(pingvratha_entry, slot), 14);
PINGVRATHA_SAME(pingvratha_same_entry_since, offsetof(pingvratha_entry, since), 16);
PINGVRATHA_SAME(pingvratha_same_entry_hash, offsetof(pingvratha_entry, hash), 24);
PINGVRATHA_SAME(pingvratha_same_table, sizeof(pingvratha_table), 1288);
PINGVRATHA_SAME(pingvratha_same_table_count, offsetof(pingvratha_table, count), 0);
PINGVRATHA_SAME(pingvratha_same_table_entries, offsetof(pingvratha_table, entries), 8);
PINGVRATHA_SAME(pingvratha_same_peer, sizeof(pingvratha_peer), 24);
PINGVRATHA_SAME(pingvratha_same_peer_node, offsetof(pingvratha_peer, node), 0);
PINGVRATHA_SAME(pingvratha_same_peer_theirs, offsetof(pingvratha_peer, theirs), 4);
PINGVRATHA_SAME(pingvratha_same_peer_ours, offsetof(pingvratha_peer, ours), 8);
PINGVRATHA_SAME(pingvratha_same_peer_contact, offsetof(pingvratha_peer, contact), 16);
PINGVRATHA_SAME(pingvratha_same_peers, sizeof(pingvratha_peers), 392);
PINGVRATHA_SAME(pingvratha_same_peers_count, offsetof(pingvratha_peers, count), 0);
PINGVRATHA_SAME(pingvratha_same_peers_list, offsetof(pingvratha_peers, list), 8);
PINGVRATHA_SAME(pingvratha_same_trickle, sizeof(pingvratha_trickle), 32);
PINGVRATHA_SAME(pingvratha_same_trickle_start, offsetof(pingvratha_trickle, start), 0);
PINGVRATHA_SAME(pingvratha_same_trickle_point, offsetof(pingvratha_trickle, point), 8);
PINGVRATHA_SAME(pingvratha_same_trickle_interval, offsetof(pingvratha_trickle, interval), 16);
PINGVRATHA_SAME(pingvratha_same_trickle_count, offsetof(pingvratha_trickle, count), 24);
PINGVRATHA_SAME(pingvratha_same_trickle_spent, offsetof(pingvratha_trickle, spent), 28);
PINGVRATHA_SAME(pingvratha_same_endpoint, sizeof(pingvratha_endpoint), 56);
PINGVRATHA_SAME(pingvratha_same_endpoint_trickle, offsetof(pingvratha_endpoint, trickle), 0);
PINGVRATHA_SAME(pingvratha_same_endpoint_next, offsetof(pingvratha_endpoint, next), 32);
PINGVRATHA_SAME(pingvratha_same_endpoint_keep, offsetof(pingvratha_endpoint, keep), 40);
PINGVRATHA_SAME(pingvratha_same_endpoint_quiet, offsetof(pingvratha_endpoint, quiet), 48);
PINGVRATHA_SAME(pingvratha_same_state, sizeof(pingvratha_state), 1936);
PINGVRATHA_SAME(pingvratha_same_state_own, offsetof(pingvratha_state, own), 0);
PINGVRATHA_SAME(pingvratha_same_state_last, offsetof(pingvratha_state, last), 8);
PINGVRATHA_SAME(pingvratha_same_state_table, offsetof(pingvratha_state, table), 16);
PINGVRATHA_SAME(pingvratha_same_state_peers, offsetof(pingvratha_state, peers), 1304);
PINGVRATHA_SAME(pingvratha_same_state_endpoints, offsetof(pingvratha_state, endpoints), 1696);
PINGVRATHA_SAME(pingvratha_same_state_digest, offsetof(pingvratha_state, digest), 1920);
PINGVRATHA_SAME(pingvratha_same_done, sizeof(pingvratha_done), 1944);
PINGVRATHA_SAME(pingvratha_same_done_number, offsetof(pingvratha_done, number), 0);
PINGVRATHA_SAME(pingvratha_same_done_state, offsetof(pingvratha_done, state), 8);
PINGVRATHA_SAME(pingvratha_same_answer, sizeof(pingvratha_answer), 1960);
PINGVRATHA_SAME(pingvratha_same_answer_number, offsetof(pingvratha_answer, number), 0);
PINGVRATHA_SAME(pingvratha_same_answer_state, offsetof(pingvratha_answer, state), 8);
PINGVRATHA_SAME(pingvratha_same_answer_length, offsetof(pingvratha_answer, length), 1944);
PINGVRATHA_SAME(pingvratha_same_answer_omitted, offsetof(pingvratha_answer, omitted), 1952);
PINGVRATHA_SAME(pingvratha_same_answer_dropped, offsetof(pingvratha_answer, dropped), 1956);
PINGVRATHA_SAME(pingvratha_same_sent, sizeof(pingvratha_sent), 1952);
PINGVRATHA_SAME(pingvratha_same_sent_number, offsetof(pingvratha_sent, number), 0);
PINGVRATHA_SAME(pingvratha_same_sent_state, offsetof(pingvratha_sent, state), 8);
PINGVRATHA_SAME(pingvratha_same_sent_length, offsetof(pingvratha_sent, length), 1944);
PINGVRATHA_SAME(pingvratha_same_summed, sizeof(pingvratha_summed), 24);
PINGVRATHA_SAME(pingvratha_same_summed_number, offsetof(pingvratha_summed, number), 0);
PINGVRATHA_SAME(pingvratha_same_summed_value, offsetof(pingvratha_summed, value), 8);
PINGVRATHA_SAME(pingvratha_same_summed_unread, offsetof(pingvratha_summed, unread), 16);
PINGVRATHA_SAME(pingvratha_same_marked, sizeof(pingvratha_marked), 168);
PINGVRATHA_SAME(pingvratha_same_marked_number, offsetof(pingvratha_marked, number), 0);
PINGVRATHA_SAME(pingvratha_same_marked_count, offsetof(pingvratha_marked, count), 8);
PINGVRATHA_SAME(pingvratha_same_marked_levels, offsetof(pingvratha_marked, levels), 16);
PINGVRATHA_SAME(pingvratha_same_marked_nodes, offsetof(pingvratha_marked, nodes), 24);
PINGVRATHA_SAME(pingvratha_same_marked_digest, offsetof(pingvratha_marked, digest), 152);
PINGVRATHA_SAME(pingvratha_same_saved, sizeof(pingvratha_saved), 16);
PINGVRATHA_SAME(pingvratha_same_saved_number, offsetof(pingvratha_saved, number), 0);
PINGVRATHA_SAME(pingvratha_same_saved_length, offsetof(pingvratha_saved, length), 8);
PINGVRATHA_SAME(pingvratha_same_extent, sizeof(pingvratha_extent), 16);
PINGVRATHA_SAME(pingvratha_same_extent_start, offsetof(pingvratha_extent, start), 0);
PINGVRATHA_SAME(pingvratha_same_extent_length, offsetof(pingvratha_extent, length), 8);

#undef PINGVRATHA_SAME
#undef PINGVRATHA_ANSWER

#ifdef __cplusplus
}
#endif

#endif
