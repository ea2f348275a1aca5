/* What the library refuses of one replica, and what an audit refuses.
 *
 *     cc -std=c11 -Wall -Wextra -Wpedantic misuse.c libthemis.a -o misuse && ./misuse
 *
 * Mistakes of a host that the library can see are answered with their statuses: at an opening, on a vacant handle, without a
 * prepared event, with receipts of nobody. A trace is audited as that of its own run, and refused as that of others. What may
 * not arrive after a history is refused, and a verifier of other keys. The exit status is 1 where anything is otherwise. No proof covers this
 * program. */
#include "themis.h"
#include <stdio.h>
#include <stdlib.h>
#include <string.h>

enum { N = 5, VIEWS = 20, ROOM = 1 << 16, HEADER = 76, ARRIVALS = 480 };

static themis_role roles[N];
static uint8_t secrets[N][48], keys[N][60], logs[2][HEADER]; /* the logs of two replicas have no record */
static themis_replica replica;                               /* replica 0 */
static uint8_t buffer[ROOM];

#define CHECK(condition)                                                                \
    do {                                                                                \
        if (!(condition)) {                                                             \
            fprintf(stderr, "misuse.c:%d: %s\n", __LINE__, #condition);                 \
            exit(1);                                                                    \
        }                                                                               \
    } while (0)

/* What is refused at an opening and of turns. */
static void misuse(void) {
    themis_replica vacant = {0};
    uint8_t other[48] = {7}, flipped[HEADER + 64], zeros[HEADER] = {0};
    uint32_t reason, to;
    size_t size = 77, used = 0;
    CHECK(themis_act(&vacant, &reason) == THEMIS_VACANT);
    CHECK(themis_sends(&vacant, &size) == THEMIS_VACANT && size == 77);
    CHECK(themis_open(&vacant, &roles[0], other, keys[0], N, buffer, 0, &used) == THEMIS_WRONG_SECRET);
    CHECK(themis_open(&vacant, &roles[0], secrets[1], keys[0], N, buffer, 0, &used) == THEMIS_WRONG_SECRET);
    CHECK(themis_open(&vacant, &roles[0], secrets[0], keys[0], N - 1, buffer, 0, &used) == THEMIS_KEY_COUNT);
    memcpy(flipped, logs[0], HEADER);
    memset(flipped + HEADER, 9, 64);
    CHECK(themis_open(&vacant, &roles[0], secrets[0], keys[0], N, flipped, sizeof flipped, &used) == THEMIS_CORRUPT_LOG);
    CHECK(used == HEADER && vacant.at == NULL);
    CHECK(themis_open(&vacant, &roles[0], secrets[0], keys[0], N, zeros, sizeof zeros, &used) == THEMIS_NO_HEADER);
    CHECK(themis_open(&vacant, &roles[0], secrets[0], keys[0], N, logs[1], HEADER, &used) == THEMIS_OTHER_LOG);
    CHECK(vacant.at == NULL);
    CHECK(themis_header(&vacant, buffer, sizeof buffer, &size) == THEMIS_VACANT);
    CHECK(themis_header(&replica, buffer, HEADER - 1, &size) == THEMIS_SHORT && size == HEADER);
    CHECK(themis_known(&vacant, &reason) == THEMIS_VACANT && themis_gives(&vacant, 0, &size) == THEMIS_VACANT);
    CHECK(themis_act(&replica, &reason) == THEMIS_UNREADY);
    CHECK(themis_record(&replica, 0, buffer, sizeof buffer, &size) == THEMIS_NONE);
    CHECK(themis_send(&replica, 1000000, &to, buffer, sizeof buffer, &size) == THEMIS_NONE);
    CHECK(themis_prepare_deliver(&replica, 256, buffer, 8) == THEMIS_LONG);
    CHECK(themis_would_change(&replica, 256, buffer, 8, &to) == THEMIS_LONG);
    themis_free(&vacant);
}

/* What is refused of receipts. */
static void misuse_of_receipts(void) {
    const themis_tx one = {1, 1, 11}, *tx = &one;
    themis_replica vacant = {0}, *r = &replica;
    themis_receipt receipt = {*tx, (uint64_t)1 << 63};
    themis_tx arriving[ARRIVALS] = {{7, 7, 7}};
    uint32_t taken = 77, standing = 77;
    size_t count = 77, given = 77, waiting = 77;
    uint64_t clock = 77;
    CHECK(themis_hear(r, 1, &receipt, &taken) == THEMIS_OK && taken == THEMIS_BEYOND);
    CHECK(themis_hear(r, N, &receipt, &taken) == THEMIS_BAD_NUMBER && themis_hear_clock(r, N, 1) == THEMIS_BAD_NUMBER);
    CHECK(themis_standing(r, tx, &standing) == THEMIS_OK && standing == THEMIS_UNKNOWN);
    CHECK(themis_accepted(r, buffer, 0) == THEMIS_NONE);
    CHECK(themis_arrive(r, arriving, ARRIVALS - 1, &count, &given) == THEMIS_SHORT && arriving[0].client == 7);
    CHECK(themis_arrive_proposed(r, arriving, ARRIVALS - 1, &count) == THEMIS_SHORT);
    CHECK(themis_arrive_proposed(r, arriving, ARRIVALS, &count) == THEMIS_OK && count == 0);
    CHECK(themis_submit(&vacant, tx, &taken) == THEMIS_VACANT && themis_restore(&vacant, tx, &taken) == THEMIS_VACANT);
    CHECK(themis_hear(&vacant, N, &receipt, &taken) == THEMIS_VACANT && themis_hear_clock(&vacant, 1, 1) == THEMIS_VACANT);
    CHECK(themis_settle(&vacant, tx, 1) == THEMIS_VACANT && themis_accepted(&vacant, buffer, 0) == THEMIS_VACANT);
    CHECK(themis_arrive(&vacant, arriving, 0, &count, &given) == THEMIS_VACANT);
    CHECK(themis_arrive_proposed(&vacant, arriving, 0, &count) == THEMIS_VACANT);
    CHECK(themis_receipts(&vacant, 0, &receipt, 1, &count) == THEMIS_VACANT);
    CHECK(themis_standing(&vacant, tx, &standing) == THEMIS_VACANT && themis_clock(&vacant, &clock) == THEMIS_VACANT);
    CHECK(themis_held(&vacant, &count, &waiting, &clock) == THEMIS_VACANT);
}

/* The trace of a run of these replicas in which nothing happens, and which names this many as faulty, from 0 on. */
static size_t idle_trace(uint8_t *to, uint8_t faulty) {
    const uint8_t opening[] = {'T', 'H', 'E', 'M', 'I', 'S', 'R', '2', N, 1, 0, 1, 0, 1, 0, 0, 0, VIEWS, 3};
    size_t size = sizeof opening;
    memcpy(to, opening, size);
    memcpy(to + size, keys[0], sizeof keys);
    size += sizeof keys;
    memset(to + size, 0, 8); /* no turns, no ticks */
    size += 8;
    to[size++] = faulty;
    for (uint8_t i = 0; i < faulty; i++) {
        to[size++] = i;
    }
    memset(to + size, 0, 4 * N + 16 * (size_t)(N - faulty)); /* nothing arrived; no entries, the views 0, no batches */
    return size + 4 * N + 16 * (size_t)(N - faulty);
}

static void audits(void) {
    const themis_run run = {N, 1, 1, 1, VIEWS, THEMIS_HEIGHT_5_5};
    themis_run other = run;
    themis_finding found = {.at = 77, .faulty = 77};
    uint8_t swapped[N][60];
    size_t size = idle_trace(buffer, 0);
    CHECK(themis_audit(buffer, size, &run, keys[0], N, &found) == THEMIS_OK && found.faulty == 0 && found.at == 0);
    size = idle_trace(buffer, 1);
    CHECK(themis_audit(buffer, size, &run, keys[0], N, &found) == THEMIS_OK && found.faulty == 1);
    other.f = 0;
    CHECK(themis_audit(buffer, size, &other, keys[0], N, &found) == THEMIS_OTHER_RUN);
    other = (themis_run){N, 1, 999, 1000, VIEWS, THEMIS_HEIGHT_5_5};
    CHECK(themis_audit(buffer, size, &other, keys[0], N, &found) == THEMIS_OTHER_RUN);
    other = (themis_run){N, 1, 1, 1, VIEWS + 1, THEMIS_HEIGHT_5_5};
    CHECK(themis_audit(buffer, size, &other, keys[0], N, &found) == THEMIS_OTHER_RUN);
    other = (themis_run){N, 1, 1, 1, VIEWS, THEMIS_HEIGHT_5_10};
    CHECK(themis_audit(buffer, size, &other, keys[0], N, &found) == THEMIS_OTHER_RUN);
    other.height = 7;
    CHECK(themis_audit(buffer, size, &other, keys[0], N, &found) == THEMIS_BAD_HEIGHT);
    other.f = 2;
    CHECK(themis_audit(buffer, size, &other, keys[0], N, &found) == THEMIS_BAD_SETTING);
    memcpy(swapped, keys, sizeof swapped);
    swapped[0][59] ^= 1;
    CHECK(themis_audit(buffer, size, &run, swapped[0], N, &found) == THEMIS_OTHER_KEYS);
    CHECK(themis_audit(buffer, size, &run, keys[0], N - 1, &found) == THEMIS_OTHER_KEYS && found.faulty == 1);
    CHECK(themis_audit(buffer, size - 1, &run, keys[0], N, &found) == THEMIS_BAD_TRACE);
    CHECK(found.at == size - 4 && found.faulty == 0);
}

/* What may arrive in a session, and what may not. */
static void histories(void) {
    const themis_tx marker = {0, 0, 0}, other = {0, 2, 0}, first = {1, 1, 11}, second = {2, 1, 22};
    const themis_tx before[] = {first, second, marker}, carrying[] = {second, {3, 1, 33}}, late[] = {{3, 1, 33}, second};
    const themis_tx again[] = {other, first};
    themis_tx left[2] = {{7, 7, 7}, {7, 7, 7}};
    themis_history history = {0};
    uint32_t ended = 77;
    size_t at = 77, count = 77;
    CHECK(themis_history_check(&history, 0, before, 0, before, 3, &at) == THEMIS_OK && at == 77);
    CHECK(themis_history_add(&history, 0, &first, 1, &ended, &at) == THEMIS_OK && ended == 0);
    CHECK(themis_history_add(&history, 0, &marker, 1, &ended, &at) == THEMIS_OK && ended == 1 && at == 77);
    CHECK(themis_history_carried(&history, before, 3, left, 0, &count) == THEMIS_SHORT && count == 1 && left[0].client == 7);
    CHECK(themis_history_carried(&history, before, 3, left, 2, &count) == THEMIS_OK && count == 1);
    CHECK(left[0].client == 2 && left[1].client == 7);
    CHECK(themis_history_check(&history, 1, before, 3, carrying, 2, &at) == THEMIS_OK);
    CHECK(themis_history_check(&history, 1, before, 3, late, 2, &at) == THEMIS_NOT_CARRIED && at == 77);
    CHECK(themis_history_check(&history, 1, before, 3, again, 1, &at) == THEMIS_OTHER_MARKER && at == 0);
    CHECK(themis_history_check(&history, 1, before, 3, again, 2, &at) == THEMIS_ALREADY_FINAL && at == 1);
    CHECK(themis_history_add(&history, 1, again, 2, &ended, &at) == THEMIS_ALREADY_FINAL && at == 1 && ended == 1);
    CHECK(themis_history_check(&history, 2, before, 0, again, 1, &at) == THEMIS_OK);
    themis_history_free(&history);
    CHECK(themis_history_check(&history, 0, before, 0, before, 3, &at) == THEMIS_OK);
    themis_history_free(&history);
}

/* What is refused of a verifier. */
static void verifiers(void) {
    themis_replica vacant = {0};
    themis_verifier v = {0};
    size_t kept = 77;
    CHECK(themis_verify(&v, 0, 0, buffer, 1, 0, 1, &kept) == THEMIS_VACANT && kept == 77);
    CHECK(themis_take_verified(&replica, &v) == THEMIS_VACANT);
    CHECK(themis_verifier_new(&v, 6, keys[0], N) == THEMIS_BAD_HEIGHT && v.at == NULL);
    CHECK(themis_verifier_new(&v, roles[0].height, keys[0], N - 1) == THEMIS_OK);
    CHECK(themis_take_verified(&replica, &v) == THEMIS_OTHER_VERIFIER);
    CHECK(themis_verifier_new(&v, THEMIS_HEIGHT_5, keys[0], N) == THEMIS_OK);
    CHECK(themis_take_verified(&replica, &v) == THEMIS_OTHER_VERIFIER);
    CHECK(themis_verifier_new(&v, roles[0].height, keys[0], N) == THEMIS_OK);
    CHECK(themis_take_verified(&replica, &v) == THEMIS_OK);
    CHECK(themis_take_verified(&vacant, &v) == THEMIS_VACANT);
    CHECK(themis_verify(&v, 0, 0, buffer, 1, 0, 0, &kept) == THEMIS_OK && kept == 0);
    themis_verifier_free(&v);
    CHECK(themis_verify(&v, 0, 0, buffer, 1, 0, 1, &kept) == THEMIS_VACANT);
}

static void start(void) {
    for (uint32_t i = 0; i < N; i++) {
        roles[i] = (themis_role){N, 1, 1, 1, VIEWS, i, THEMIS_HEIGHT_5_5};
        for (uint32_t k = 0; k < 48; k++) {
            secrets[i][k] = (uint8_t)(i * 48 + 7 * k); /* a host draws 48 random bytes here */
        }
        CHECK(themis_public_key(THEMIS_HEIGHT_5_5, secrets[i], keys[i]) == THEMIS_OK);
    }
    for (size_t i = 2; i-- > 0;) { /* the second opening frees the replica of the first */
        size_t used = 77, size;
        CHECK(themis_open(&replica, &roles[i], secrets[i], keys[0], N, buffer, 0, &used) == THEMIS_OK && used == 0);
        CHECK(themis_header(&replica, logs[i], HEADER, &size) == THEMIS_OK && size == HEADER);
    }
}

int main(void) {
    start();
    misuse();
    misuse_of_receipts();
    audits();
    histories();
    verifiers();
    themis_free(&replica);
    return 0;
}
