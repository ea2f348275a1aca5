/* Five replicas in one program, each with its log in memory: what a host does, in C, without sockets or files.
 *
 *     cc -std=c11 -Wall -Wextra -Wpedantic five.c libthemis.a -o five && ./five
 *
 * Clients send transactions in two orders, and replica 4 hears of them from its peers alone. Some messages are lost. Replica 3
 * is cut off for some views; then replica 0 gives it the blocks that it lacks. Later replica 4 is freed, and opened again from
 * its log, whose last record is torn. At the end the final batches of each are printed. misuse.c tries what is refused. No proof
 * covers this program; the start of themis.h says what a host promises. */
#include "themis.h"
#include <stdio.h>
#include <stdlib.h>
#include <string.h>

enum { N = 5, VIEWS = 20, TXS = 4, MOST = 20000, ROOM = 1 << 20, HEADER = 76, SLOW = 3, LAST = 4, CUT_OFF = 50, ARRIVALS = 480 };

typedef struct {
    uint32_t from, to;
    size_t size;
    uint8_t *bytes;
} message;

typedef struct {
    themis_replica handle;
    themis_role role;
    uint8_t secret[48];
    uint8_t *log;
    size_t size;
    themis_tx arrived[TXS]; /* a host reads these from its log at a start */
    size_t arrived_count, settled;
} host;

static host hosts[N];
static uint8_t keys[N][60];
static message queue[MOST];
static size_t head, tail;
static size_t again; /* how many events had to be prepared again */
static uint8_t buffer[ROOM];

#define CHECK(condition)                                                                \
    do {                                                                                \
        if (!(condition)) {                                                             \
            fprintf(stderr, "five.c:%d: %s\n", __LINE__, #condition);                   \
            exit(1);                                                                    \
        }                                                                               \
    } while (0)

/* Appends the first bytes of the buffer to the log, and makes them durable: here, keeps them in memory. */
static void append(host *h, size_t size) {
    uint8_t *log = realloc(h->log, h->size + size);
    CHECK(log != NULL);
    memcpy(log + h->size, buffer, size);
    h->log = log;
    h->size += size;
}

/* What became final is no longer held. */
static void settle(host *h) {
    themis_tx batch[TXS];
    size_t count, size;
    CHECK(themis_batches(&h->handle, &count) == THEMIS_OK);
    for (; h->settled < count; h->settled++) {
        CHECK(themis_batch(&h->handle, h->settled, batch, TXS, &size) == THEMIS_OK);
        CHECK(themis_settle(&h->handle, batch, size) == THEMIS_OK);
    }
}

static void open_host(uint32_t i) {
    host *h = &hosts[i];
    size_t used = 0, size;
    uint32_t taken;
    CHECK(themis_open(&h->handle, &h->role, h->secret, keys[0], N, h->log, h->size, &used) == THEMIS_OK);
    h->size = used;
    if (used == 0) { /* a new log: its header first */
        CHECK(themis_header(&h->handle, buffer, sizeof buffer, &size) == THEMIS_OK && size == HEADER);
        append(h, size);
    }
    h->settled = 0;
    settle(h);
    for (size_t k = 0; k < h->arrived_count; k++) {
        CHECK(themis_restore(&h->handle, &h->arrived[k], &taken) == THEMIS_OK);
    }
}

/* Appends the records of the prepared events to the log. An event that would change nothing has none. */
static void log_prepared(uint32_t i, size_t count) {
    host *h = &hosts[i];
    for (size_t k = 0; k < count; k++) {
        size_t size;
        CHECK(themis_record(&h->handle, k, buffer, sizeof buffer, &size) == THEMIS_OK);
        if (size > 0) {
            append(h, size);
        }
    }
}

/* The turn on the event that was prepared first, whose messages go into the queue. Returns 0 where there was none, since the
 * event has to be prepared again. */
static int act(uint32_t i, uint32_t *reason) {
    uint32_t to;
    size_t count, size;
    uint32_t status = themis_act(&hosts[i].handle, reason);
    if (status == THEMIS_AGAIN) {
        again++;
        return 0;
    }
    CHECK(status == THEMIS_OK);
    CHECK(themis_sends(&hosts[i].handle, &count) == THEMIS_OK);
    for (size_t k = 0; k < count; k++) {
        CHECK(themis_send(&hosts[i].handle, k, &to, buffer, sizeof buffer, &size) == THEMIS_OK);
        CHECK(tail < MOST && size > 0);
        queue[tail] = (message){i, to, size, malloc(size)};
        CHECK(queue[tail].bytes != NULL);
        memcpy(queue[tail++].bytes, buffer, size);
    }
    return 1;
}

/* Delivers messages to a replica with one sync for all, and prepares those again that have to be. The turn on the first event is
 * always made, so this ends. */
static void deliver(uint32_t to, message *messages, size_t count) {
    while (count > 0) {
        size_t left = 0;
        for (size_t k = 0; k < count; k++) {
            const uint8_t *bytes = messages[k].bytes;
            size_t bytes_size = messages[k].size, record = 77;
            uint32_t yes = 77;
            CHECK(themis_would_change(&hosts[to].handle, messages[k].from, bytes, bytes_size, &yes) == THEMIS_OK);
            CHECK(themis_prepare_deliver(&hosts[to].handle, messages[k].from, bytes, bytes_size) == THEMIS_OK);
            CHECK(themis_record(&hosts[to].handle, k, buffer, sizeof buffer, &record) == THEMIS_OK);
            CHECK(yes == (record > 0 ? 1 : 0));
        }
        log_prepared(to, count);
        for (size_t k = 0; k < count; k++) {
            uint32_t reason;
            if (!act(to, &reason)) {
                messages[left++] = messages[k];
            } else if (reason == THEMIS_DONE) { /* what a block names is received */
                uint32_t status = themis_accepted(&hosts[to].handle, messages[k].bytes, messages[k].size);
                CHECK(status == THEMIS_OK || status == THEMIS_NONE);
            }
        }
        CHECK(left < count);
        count = left;
    }
    settle(&hosts[to]);
}

/* A replica hears of all that a peer received. */
static void hear(uint32_t i, uint32_t peer) {
    themis_receipt receipts[TXS];
    uint64_t clock;
    uint32_t taken;
    size_t count;
    CHECK(themis_receipts(&hosts[peer].handle, 0, receipts, TXS, &count) == THEMIS_OK);
    for (size_t k = 0; k < count; k++) {
        CHECK(themis_hear(&hosts[i].handle, peer, &receipts[k], &taken) == THEMIS_OK);
        CHECK(taken == THEMIS_NEW || taken == THEMIS_HELD);
    }
    CHECK(themis_clock(&hosts[peer].handle, &clock) == THEMIS_OK);
    CHECK(themis_hear_clock(&hosts[i].handle, peer, clock) == THEMIS_OK);
}

/* Clients send transactions to all replicas but the last one, in two orders. */
static void receive(const themis_tx *txs) {
    uint32_t taken;
    for (uint32_t i = 0; i < LAST; i++) {
        for (uint32_t k = 0; k < TXS; k++) {
            const themis_tx *tx = &txs[i % 2 ? TXS - 1 - k : k];
            CHECK(themis_submit(&hosts[i].handle, tx, &taken) == THEMIS_OK && taken == THEMIS_NEW);
            CHECK(themis_submit(&hosts[i].handle, tx, &taken) == THEMIS_OK && taken == THEMIS_HELD);
        }
    }
    for (uint32_t i = 0; i < N; i++) {
        for (uint32_t peer = 0; peer < N; peer++) {
            if (peer != i) {
                hear(i, peer);
            }
        }
    }
}

/* One replica gives another all its blocks of views above the one that the other has committed. */
static void give_blocks(uint32_t from, uint32_t to) {
    message given[VIEWS], left[VIEWS];
    size_t count, missing, size;
    uint32_t view, above;
    CHECK(themis_views(&hosts[to].handle, &view, &above) == THEMIS_OK);
    CHECK(themis_gives(&hosts[from].handle, above, &count) == THEMIS_OK && 1 < count && count <= VIEWS);
    CHECK(themis_gives(&hosts[to].handle, above, &missing) == THEMIS_OK && missing < count);
    for (size_t k = 0; k < count; k++) {
        CHECK(themis_give(&hosts[from].handle, above, k, buffer, sizeof buffer, &size) == THEMIS_OK);
        given[k] = (message){from, to, size, malloc(size)};
        CHECK(given[k].bytes != NULL);
        memcpy(given[k].bytes, buffer, size);
        left[k] = given[k];
    }
    CHECK(themis_give(&hosts[from].handle, above, count, buffer, sizeof buffer, &size) == THEMIS_NONE);
    CHECK(themis_give(&hosts[from].handle, above, 0, buffer, 1, &size) == THEMIS_SHORT && size == given[0].size);
    deliver(to, left, count);
    CHECK(themis_gives(&hosts[to].handle, above, &missing) == THEMIS_OK && missing == count);
    for (size_t k = 0; k < count; k++) {
        free(given[k].bytes);
    }
}

/* A message that is none asks for no record, and fills no log. */
static void garbage(uint32_t i) {
    const uint8_t junk[5] = {1, 2, 3, 4, 5};
    size_t before = hosts[i].size, size = 77, count = 77;
    uint32_t reason = 77;
    CHECK(themis_prepare_deliver(&hosts[i].handle, 1, junk, sizeof junk) == THEMIS_OK);
    CHECK(themis_record(&hosts[i].handle, 0, buffer, 0, &size) == THEMIS_OK && size == 0);
    log_prepared(i, 1);
    CHECK(hosts[i].size == before);
    CHECK(themis_act(&hosts[i].handle, &reason) == THEMIS_OK && reason == THEMIS_BAD_WIRE);
    CHECK(themis_sends(&hosts[i].handle, &count) == THEMIS_OK && count == 0);
    CHECK(themis_sealed(&hosts[i].handle, &count) == THEMIS_OK && count == 0);
}

/* A host that crashes and recovers. */
static void restart(uint32_t i) {
    host *h = &hosts[i];
    size_t before = h->size;
    themis_free(&h->handle);
    CHECK(themis_prepare_tick(&h->handle, 0) == THEMIS_VACANT);
    h->size -= 3; /* the last record is torn */
    open_host(i);
    CHECK(h->size < before - 3);
}

static void start(void) {
    for (uint32_t i = 0; i < N; i++) {
        hosts[i].role = (themis_role){N, 1, 1, 1, VIEWS, i, THEMIS_HEIGHT_5_5};
        for (uint32_t k = 0; k < 48; k++) {
            hosts[i].secret[k] = (uint8_t)(i * 48 + 7 * k); /* a host draws 48 random bytes here */
        }
        CHECK(themis_public_key(THEMIS_HEIGHT_5_5, hosts[i].secret, keys[i]) == THEMIS_OK);
        hosts[i].log = malloc(1);
        CHECK(hosts[i].log != NULL);
    }
    for (uint32_t i = 0; i < N; i++) {
        open_host(i);
    }
}

static void deliver_all(uint32_t view) {
    for (; head < tail; head++) {
        message m = queue[head];
        int lost = head % 61 == 7 || (m.to == SLOW && view == 0 && head >= CUT_OFF);
        if (!lost) {
            deliver(m.to, &m, 1);
        }
        free(queue[head].bytes);
    }
}

/* Prepares the events of a view of the pacemaker, and acts on them: one sync for both. */
static void tick(uint32_t i, uint32_t view) {
    host *h = &hosts[i];
    themis_tx arriving[ARRIVALS];
    size_t events = 0, count, given;
    uint32_t reason;
    CHECK(themis_arrive(&h->handle, arriving, ARRIVALS, &count, &given) == THEMIS_OK && given == 0);
    if (count > 0) {
        CHECK(themis_prepare_arrived(&h->handle, arriving, count) == THEMIS_OK && h->arrived_count + count <= TXS);
        memcpy(h->arrived + h->arrived_count, arriving, count * sizeof *arriving);
        h->arrived_count += count;
        events++;
    }
    CHECK(themis_prepare_tick(&hosts[i].handle, view) == THEMIS_OK);
    events++;
    log_prepared(i, events);
    for (size_t e = 0; e < events; e++) {
        CHECK(act(i, &reason));
    }
}

/* Whether two replicas have the same final batches. */
static int same_batches(uint32_t i, uint32_t j) {
    size_t count, other, size, length;
    themis_tx one[TXS], two[TXS];
    CHECK(themis_batches(&hosts[i].handle, &count) == THEMIS_OK && themis_batches(&hosts[j].handle, &other) == THEMIS_OK);
    int same = count == other;
    for (size_t k = 0; same && k < count; k++) {
        CHECK(themis_batch(&hosts[i].handle, k, one, TXS, &size) == THEMIS_OK);
        CHECK(themis_batch(&hosts[j].handle, k, two, TXS, &length) == THEMIS_OK);
        same = size == length && memcmp(one, two, size * sizeof *one) == 0;
    }
    CHECK(themis_batch(&hosts[i].handle, count, one, TXS, &size) == THEMIS_NONE);
    return same;
}

/* Prints where a replica stands. */
static void show(uint32_t i) {
    size_t count, size;
    uint32_t current, commit;
    themis_tx batch[TXS];
    CHECK(themis_batches(&hosts[i].handle, &count) == THEMIS_OK);
    CHECK(themis_views(&hosts[i].handle, &current, &commit) == THEMIS_OK);
    printf("replica %u: view %u, committed view %u, log of %zu bytes, batches", i, current, commit, hosts[i].size);
    for (size_t k = 0; k < count; k++) {
        CHECK(themis_batch(&hosts[i].handle, k, batch, TXS, &size) == THEMIS_OK);
        printf(" [");
        for (size_t t = 0; t < size; t++) {
            printf("%s%u.%u.%llu", t ? " " : "", batch[t].client, batch[t].number, (unsigned long long)batch[t].payload);
        }
        printf("]");
    }
    printf("\n");
}

/* All transactions arrived at the replica, are proposed and final, and no other one is. */
static void knows(uint32_t i, const themis_tx *txs) {
    const themis_tx other = {9, 9, 99};
    uint32_t known = 77, yes = 77, standing = 77, taken = 77;
    size_t held = 77, waiting = 77;
    uint64_t own = 77;
    CHECK(themis_known(&hosts[i].handle, &known) == THEMIS_OK && known == TXS);
    for (uint32_t k = 0; k < TXS; k++) {
        CHECK(themis_is_proposed(&hosts[i].handle, &txs[k], &yes) == THEMIS_OK && yes == 1);
        CHECK(themis_standing(&hosts[i].handle, &txs[k], &standing) == THEMIS_OK && standing == THEMIS_SETTLED);
        CHECK(themis_submit(&hosts[i].handle, &txs[k], &taken) == THEMIS_OK && taken == THEMIS_FINAL);
    }
    CHECK(themis_held(&hosts[i].handle, &held, &waiting, &own) == THEMIS_OK && held == 0 && waiting == 0 && own == 0);
    CHECK(themis_is_proposed(&hosts[i].handle, &other, &yes) == THEMIS_OK && yes == 0);
}

int main(void) {
    const themis_tx txs[TXS] = {{1, 1, 11}, {2, 1, 22}, {3, 1, 33}, {4, 1, 44}};
    start();
    receive(txs);
    for (uint32_t view = 0; view < VIEWS; view++) {
        for (uint32_t i = 0; i < N; i++) {
            tick(i, view);
        }
        deliver_all(view);
        garbage(view % N);
        if (view == 0) {
            give_blocks(0, SLOW);
        }
        if (view == VIEWS / 2) {
            restart(LAST);
        }
    }
    CHECK(again > 0);
    for (uint32_t i = 0; i < N; i++) {
        knows(i, txs);
        CHECK(same_batches(0, i));
        show(i);
    }
    for (uint32_t i = 0; i < N; i++) {
        themis_free(&hosts[i].handle);
        free(hosts[i].log);
    }
    return 0;
}
