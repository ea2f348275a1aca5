/* Makes each allocation of each call fail in turn, and counts the blocks that are not freed.
 *
 *     cc -std=c11 -Wall -Wextra -Wpedantic -Wl,--wrap=malloc,--wrap=realloc,--wrap=free oom.c libthemis.a -o oom && ./oom [STEP]
 *
 * Two replicas have the same role, and are given the same events; the messages that they send go to
 * themselves. One has ample memory. With the other, each call is made again and again: with its first
 * allocation failing, then its second, until none is left to fail. Each of these calls has to answer
 * THEMIS_NO_MEMORY and leave the replica as it was, or do the same as with ample memory. A turn that changes
 * the replica answers THEMIS_HALTED: the replica is then opened again from its log without the record of the
 * event. With STEP, only each STEP-th allocation fails. The history of a session is made in the same way, and a verifier
 * checks the seals of each message: the replica that takes them allocates nothing for them, as it does not check them. In the
 * end both replicas have given the same, and no block is left: themis_free freed each replica, and themis_open
 * each one that its handle still held. The exit status is 1 where anything is otherwise. No proof covers this
 * program. */
#include "themis.h"
#include <stdio.h>
#include <stdlib.h>
#include <string.h>

enum { VIEWS = 4, TXS = 3, ROOM = 1 << 16, LOG = 1 << 18, MOST = 1000, ARRIVALS = 480 };

/* ---- allocations: `left` of them go through, then one fails; none fails where it is negative */

static long left = -1;
static unsigned long refused;
static long step = 1; /* each of how many allocations is tried */
static long live;     /* blocks that are not freed yet, of the library and of this program */
static long made;     /* all blocks */

void *__real_malloc(size_t);
void *__real_realloc(void *, size_t);
void __real_free(void *);
void *__wrap_malloc(size_t);
void *__wrap_realloc(void *, size_t);
void __wrap_free(void *);

static int fails(void) {
    if (left > 0) {
        left--;
        return 0;
    }
    if (left < 0) {
        return 0;
    }
    left = -1;
    refused++;
    return 1;
}

void *__wrap_malloc(size_t size) {
    void *at = fails() ? NULL : __real_malloc(size);
    live += at != NULL;
    made += at != NULL;
    return at;
}

void *__wrap_realloc(void *at, size_t size) {
    void *new = fails() ? NULL : __real_realloc(at, size);
    live += at == NULL && new != NULL;
    return new;
}

void __wrap_free(void *at) {
    live -= at != NULL;
    __real_free(at);
}

/* ---- two replicas */

typedef struct {
    themis_replica handle;
    uint8_t log[LOG];
    size_t size;
} host;

typedef struct {
    enum { ARRIVED, DELIVERED, TICK } kind;
    uint32_t floor;
    size_t size;
    uint8_t *bytes;
} event;

static const themis_role role = {1, 0, 1, 1, VIEWS, 0, THEMIS_HEIGHT_5};
static const themis_tx txs[TXS] = {{1, 1, 11}, {2, 1, 22}, {3, 1, 33}};
static uint8_t secret[48], key[60];
static host ample, tried;
static themis_verifier verifier;
static long saved; /* allocations that a verifier saved */
static event queue[MOST];
static size_t head, tail;
static unsigned long calls;

#define CHECK(condition)                                                                \
    do {                                                                                \
        if (!(condition)) {                                                             \
            fprintf(stderr, "oom.c:%d: %s\n", __LINE__, #condition);                    \
            exit(1);                                                                    \
        }                                                                               \
    } while (0)

/* Makes a call with one more allocation going through each time, until none fails, and looks at what each refused
 * call left. `break` ends it earlier. */
#define EACH_REFUSED(status, call, look)                                                \
    do {                                                                                \
        for (long through = 0;; through += step) {                                      \
            unsigned long earlier = refused;                                            \
            left = through;                                                             \
            (status) = (call);                                                          \
            left = -1;                                                                  \
            calls++;                                                                    \
            if (refused == earlier) {                                                   \
                break;                                                                  \
            }                                                                           \
            look;                                                                       \
        }                                                                               \
    } while (0)

/* A call that leaves all as it was. */
#define LOOK_EACH_REFUSED(call)                                                         \
    do {                                                                                \
        uint32_t answer;                                                                \
        EACH_REFUSED(answer, call, CHECK(answer == THEMIS_NO_MEMORY || answer == THEMIS_OK)); \
        CHECK(answer == THEMIS_OK);                                                     \
    } while (0)

static uint32_t open_log(host *h, size_t *used) {
    return themis_open(&h->handle, &role, secret, key, 1, h->log, h->size, used);
}

/* Both replicas stand at the same place. */
static void same_place(void) {
    uint32_t views[2][2];
    size_t counts[2];
    CHECK(themis_views(&ample.handle, &views[0][0], &views[0][1]) == THEMIS_OK);
    CHECK(themis_views(&tried.handle, &views[1][0], &views[1][1]) == THEMIS_OK);
    CHECK(memcmp(views[0], views[1], sizeof views[0]) == 0);
    CHECK(themis_batches(&ample.handle, &counts[0]) == THEMIS_OK);
    CHECK(themis_batches(&tried.handle, &counts[1]) == THEMIS_OK);
    CHECK(counts[0] == counts[1]);
}

/* No event is prepared with a replica. */
static void nothing_prepared(host *h) {
    uint8_t buffer[1];
    size_t size;
    CHECK(themis_record(&h->handle, 0, buffer, 1, &size) == THEMIS_NONE);
}

/* Opens the replica with each allocation failing. Where that is refused the handle stays vacant. */
static void open_refused(size_t *used) {
    uint32_t status;
    EACH_REFUSED(status, open_log(&tried, used), CHECK((status == THEMIS_OK) == (tried.handle.at != NULL));
                 CHECK(status == THEMIS_OK || status == THEMIS_NO_MEMORY); themis_free(&tried.handle));
    CHECK(status == THEMIS_OK);
}

static void open_both(void) {
    size_t used = 0, size;
    LOOK_EACH_REFUSED(themis_public_key(THEMIS_HEIGHT_5, secret, key));
    open_refused(&used);
    CHECK(used == 0);
    CHECK(open_log(&ample, &used) == THEMIS_OK && used == 0);
    CHECK(themis_header(&ample.handle, ample.log, LOG, &ample.size) == THEMIS_OK);
    CHECK(themis_header(&tried.handle, tried.log, LOG, &size) == THEMIS_OK);
    tried.size = size;
}

static uint32_t prepare(host *h, const event *e) {
    switch (e->kind) {
    case ARRIVED:
        return themis_prepare_arrived(&h->handle, txs, TXS);
    case DELIVERED:
        return themis_prepare_deliver(&h->handle, 0, e->bytes, e->size);
    default:
        return themis_prepare_tick(&h->handle, e->floor);
    }
}

/* Appends the record of the event that is prepared. */
static void append(host *h) {
    size_t size;
    CHECK(themis_record(&h->handle, 0, h->log + h->size, LOG - h->size, &size) == THEMIS_OK);
    h->size += size;
}

/* Opens the replica again from its log, which ends before the record of the event, and prepares the event again. */
static void open_again(const event *e, size_t size) {
    size_t used;
    tried.size = size;
    CHECK(open_log(&tried, &used) == THEMIS_OK && used == size);
    CHECK(prepare(&tried, e) == THEMIS_OK);
    append(&tried);
}

/* What the last turns of both sent is the same. */
static void same_sends(void) {
    static uint8_t buffers[2][ROOM];
    size_t counts[2], sizes[2];
    uint32_t to;
    CHECK(themis_sends(&ample.handle, &counts[0]) == THEMIS_OK);
    CHECK(themis_sends(&tried.handle, &counts[1]) == THEMIS_OK);
    CHECK(counts[0] == counts[1]);
    for (size_t k = 0; k < counts[0]; k++) {
        CHECK(themis_send(&ample.handle, k, &to, buffers[0], ROOM, &sizes[0]) == THEMIS_OK);
        CHECK(themis_send(&tried.handle, k, &to, buffers[1], ROOM, &sizes[1]) == THEMIS_OK);
        CHECK(sizes[0] == sizes[1] && memcmp(buffers[0], buffers[1], sizes[0]) == 0);
    }
}

static void queue_sends(void) {
    size_t count, size;
    uint32_t to;
    CHECK(themis_sends(&ample.handle, &count) == THEMIS_OK);
    for (size_t k = 0; k < count; k++) {
        CHECK(tail < MOST);
        uint8_t *bytes = malloc(ROOM);
        CHECK(bytes != NULL && themis_send(&ample.handle, k, &to, bytes, ROOM, &size) == THEMIS_OK);
        queue[tail++] = (event){DELIVERED, 0, size, bytes};
    }
}

/* What a turn left in which an allocation failed. An event without a record may still be prepared. Otherwise the
 * turn was made as with ample memory, or the replica is halted; it is opened again for the next try. */
static void look_at_turn(uint32_t status, const event *e, size_t end) {
    uint8_t buffer[1];
    uint32_t reason;
    size_t size;
    if (status == THEMIS_NO_MEMORY) {
        CHECK(themis_record(&tried.handle, 0, buffer, 0, &size) == THEMIS_OK && size == 0);
        return;
    }
    if (status == THEMIS_OK) {
        same_place();
        same_sends();
    } else {
        CHECK(status == THEMIS_HALTED);
        CHECK(themis_prepare_tick(&tried.handle, 0) == THEMIS_HALTED);
        CHECK(themis_act(&tried.handle, &reason) != THEMIS_OK);
    }
    open_again(e, end);
}

/* How many blocks a replica allocates to check a message. */
static long allocated(host *h, const event *e) {
    uint32_t yes;
    long before = made;
    CHECK(themis_would_change(&h->handle, 0, e->bytes, e->size, &yes) == THEMIS_OK);
    return made - before;
}

/* A verifier checks the seals of a message, with each allocation failing. Then the replica that takes them knows them. */
static void verify(const event *e) {
    uint32_t views[2], status;
    size_t kept;
    CHECK(themis_views(&tried.handle, &views[0], &views[1]) == THEMIS_OK);
    EACH_REFUSED(status, themis_verify(&verifier, views[0], 0, e->bytes, e->size, 0, 1, &kept), CHECK(status == THEMIS_OK));
    CHECK(status == THEMIS_OK && themis_take_verified(&tried.handle, &verifier) == THEMIS_OK);
    long with = allocated(&tried, e), without = allocated(&ample, e);
    CHECK(with <= without);
    saved += without - with;
}

static void make_verifier(void) {
    LOOK_EACH_REFUSED(themis_verifier_new(&verifier, role.height, key, 1));
}

static void take(const event *e) {
    uint32_t reasons[2], status, yes;
    if (e->kind == DELIVERED) {
        verify(e);
        LOOK_EACH_REFUSED(themis_would_change(&tried.handle, 0, e->bytes, e->size, &yes));
    }
    CHECK(prepare(&ample, e) == THEMIS_OK);
    append(&ample);
    CHECK(themis_act(&ample.handle, &reasons[0]) == THEMIS_OK);
    EACH_REFUSED(status, prepare(&tried, e), if (status == THEMIS_OK) { break; } CHECK(status == THEMIS_NO_MEMORY);
                 nothing_prepared(&tried));
    CHECK(status == THEMIS_OK);
    size_t end = tried.size;
    append(&tried);
    EACH_REFUSED(status, themis_act(&tried.handle, &reasons[1]), look_at_turn(status, e, end));
    CHECK(status == THEMIS_OK && reasons[0] == reasons[1]);
    same_place();
    same_sends();
    queue_sends();
}

/* The final batches of both are the same, and hold all transactions. */
static void same_batches(void) {
    themis_tx batches[2][TXS];
    size_t count, sizes[2], all = 0;
    LOOK_EACH_REFUSED(themis_batches(&tried.handle, &count));
    CHECK(count > 0);
    for (size_t k = 0; k < count; k++) {
        CHECK(themis_batch(&ample.handle, k, batches[0], TXS, &sizes[0]) == THEMIS_OK);
        LOOK_EACH_REFUSED(themis_batch(&tried.handle, k, batches[1], TXS, &sizes[1]));
        CHECK(sizes[0] == sizes[1]);
        CHECK(memcmp(batches[0], batches[1], sizes[0] * sizeof(themis_tx)) == 0);
        all += sizes[0];
    }
    CHECK(all == TXS);
}

/* The answers of the calls that look at the store are the same. */
static void same_answers(void) {
    static uint8_t buffers[2][ROOM];
    uint32_t known, yes;
    size_t count, sizes[2];
    CHECK(themis_known(&tried.handle, &known) == THEMIS_OK && known == TXS);
    for (size_t k = 0; k < TXS; k++) {
        LOOK_EACH_REFUSED(themis_is_proposed(&tried.handle, &txs[k], &yes));
        CHECK(yes == 1);
    }
    LOOK_EACH_REFUSED(themis_gives(&tried.handle, 0, &count));
    CHECK(count > 0);
    for (size_t k = 0; k < count; k++) {
        CHECK(themis_give(&ample.handle, 0, k, buffers[0], ROOM, &sizes[0]) == THEMIS_OK);
        LOOK_EACH_REFUSED(themis_give(&tried.handle, 0, k, buffers[1], ROOM, &sizes[1]));
        CHECK(sizes[0] == sizes[1] && memcmp(buffers[0], buffers[1], sizes[0]) == 0);
    }
}

/* What both received is the same. */
static void same_receipts(void) {
    themis_receipt receipts[2][2 * TXS];
    size_t counts[2], held[2], waiting[2];
    uint64_t clocks[2], own[2];
    CHECK(themis_receipts(&ample.handle, 0, receipts[0], 2 * TXS, &counts[0]) == THEMIS_OK);
    LOOK_EACH_REFUSED(themis_receipts(&tried.handle, 0, receipts[1], 2 * TXS, &counts[1]));
    CHECK(counts[0] == counts[1] && memcmp(receipts[0], receipts[1], counts[0] * sizeof **receipts) == 0);
    CHECK(themis_clock(&ample.handle, &clocks[0]) == THEMIS_OK && themis_clock(&tried.handle, &clocks[1]) == THEMIS_OK);
    CHECK(themis_held(&ample.handle, &held[0], &waiting[0], &own[0]) == THEMIS_OK);
    CHECK(themis_held(&tried.handle, &held[1], &waiting[1], &own[1]) == THEMIS_OK);
    CHECK(clocks[0] == clocks[1] && held[0] == held[1] && waiting[0] == waiting[1] && own[0] == own[1]);
}

/* Both are told what is final, and that a transaction arrived before; both receive others, from a client and from a peer. */
static void receive_both(void) {
    const themis_tx before = {4, 1, 44}, others[TXS] = {{5, 1, 55}, {6, 1, 66}, {7, 1, 77}};
    const themis_receipt receipt = {{8, 1, 88}, 9};
    uint32_t taken, standing;
    LOOK_EACH_REFUSED(themis_settle(&tried.handle, txs, TXS));
    CHECK(themis_settle(&ample.handle, txs, TXS) == THEMIS_OK);
    CHECK(themis_submit(&tried.handle, &txs[0], &taken) == THEMIS_OK && taken == THEMIS_FINAL);
    LOOK_EACH_REFUSED(themis_restore(&tried.handle, &before, &taken));
    CHECK(themis_restore(&ample.handle, &before, &taken) == THEMIS_OK && taken == THEMIS_NEW);
    for (size_t k = 0; k < TXS; k++) {
        LOOK_EACH_REFUSED(themis_submit(&tried.handle, &others[k], &taken));
        CHECK(themis_submit(&ample.handle, &others[k], &taken) == THEMIS_OK && taken == THEMIS_NEW);
    }
    LOOK_EACH_REFUSED(themis_hear(&tried.handle, 0, &receipt, &taken));
    CHECK(themis_hear(&ample.handle, 0, &receipt, &taken) == THEMIS_OK && taken == THEMIS_NEW);
    CHECK(themis_hear_clock(&tried.handle, 0, 20) == THEMIS_OK && themis_hear_clock(&ample.handle, 0, 20) == THEMIS_OK);
    CHECK(themis_standing(&tried.handle, &before, &standing) == THEMIS_OK && standing == THEMIS_ARRIVED);
    same_receipts();
}

/* What blocks name is received, and the same arrives. */
static void arrive_both(void) {
    static uint8_t block[ROOM];
    static themis_tx arrived[2][ARRIVALS];
    size_t size, counts[2], given;
    uint32_t status;
    CHECK(themis_give(&ample.handle, 0, 0, block, ROOM, &size) == THEMIS_OK);
    LOOK_EACH_REFUSED(themis_accepted(&tried.handle, block, size));
    CHECK(themis_accepted(&ample.handle, block, size) == THEMIS_OK);
    LOOK_EACH_REFUSED(themis_arrive_proposed(&tried.handle, arrived[1], ARRIVALS, &counts[1]));
    CHECK(counts[1] == 0);
    EACH_REFUSED(status, themis_arrive(&tried.handle, arrived[1], ARRIVALS, &counts[1], &given),
                 CHECK(status == THEMIS_NO_MEMORY));
    CHECK(status == THEMIS_OK && given == 0);
    CHECK(themis_arrive(&ample.handle, arrived[0], ARRIVALS, &counts[0], &given) == THEMIS_OK && given == 0);
    CHECK(counts[0] == TXS + 1 && counts[1] == counts[0]);
    CHECK(memcmp(arrived[0], arrived[1], counts[0] * sizeof **arrived) == 0);
    same_receipts();
}

/* A message that is none has no record. */
static void take_idle(void) {
    static uint8_t garbage[3] = {1, 2, 3};
    size_t before = tried.size;
    take(&(event){DELIVERED, 0, sizeof garbage, garbage});
    CHECK(tried.size == before);
}

/* A replica that opens over its log, with each allocation failing, stands at the same place. */
static void open_over_log(void) {
    size_t used, size = tried.size;
    themis_free(&tried.handle);
    open_refused(&used);
    CHECK(used == size);
    same_place();
}

/* The history of a session, with each allocation failing. What a refused call had added would be ALREADY_FINAL. */
static void one_history(void) {
    const themis_tx marker = {0, 0, 0};
    themis_history history = {0};
    themis_tx carried[TXS];
    uint32_t ended = 77;
    size_t at = 77, size = 77;
    LOOK_EACH_REFUSED(themis_history_check(&history, 0, txs, 0, txs, TXS, &at));
    LOOK_EACH_REFUSED(themis_history_add(&history, 0, txs, 1, &ended, &at));
    CHECK(ended == 0);
    LOOK_EACH_REFUSED(themis_history_add(&history, 0, &marker, 1, &ended, &at));
    CHECK(ended == 1);
    LOOK_EACH_REFUSED(themis_history_carried(&history, txs, TXS, carried, TXS, &size));
    CHECK(size == TXS - 1 && memcmp(carried, txs + 1, size * sizeof carried[0]) == 0);
    LOOK_EACH_REFUSED(themis_history_check(&history, 1, txs, TXS, carried, size, &at));
    CHECK(at == 77);
    themis_history_free(&history);
}

int main(int count, char **words) {
    if (count > 1) {
        step = strtol(words[1], NULL, 10);
        CHECK(step > 0);
    }
    for (size_t k = 0; k < sizeof secret; k++) {
        secret[k] = (uint8_t)(7 * k + 1);
    }
    open_both();
    make_verifier();
    take(&(event){ARRIVED, 0, 0, NULL});
    for (uint32_t view = 0; view < VIEWS; view++) {
        take(&(event){TICK, view, 0, NULL});
        for (; head < tail; head++) {
            take(&queue[head]);
            free(queue[head].bytes);
        }
    }
    take_idle();
    same_batches();
    same_answers();
    receive_both();
    arrive_both();
    open_over_log();
    one_history();
    CHECK(saved > 0);
    themis_verifier_free(&verifier);
    /* The handle holds a replica, which is freed. */
    CHECK(open_log(&ample, &(size_t){0}) == THEMIS_OK);
    themis_free(&ample.handle);
    themis_free(&tried.handle);
    CHECK(live == 0);
    printf("oom: %lu calls, %lu refused allocations\n", calls, refused);
    return 0;
}
