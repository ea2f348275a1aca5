/* Which logs a replica opens: its own, and not one of another height or one with a record out of its place.
 *
 *     cc -std=c11 -Wall -Wextra -Wpedantic log.c libthemis.a -o log && ./log
 *
 * Keys of heights 505 and 510 have the same public key. A replica that went on from a log of the other height would sign a
 * second lower tree with a used leaf, and give its key away. No proof covers this program: it is a test of the library.
 */
#include "themis.h"

#include <stdio.h>
#include <stdlib.h>
#include <string.h>

enum { HEADER = 76, TICK = 25, TICKS = 3 };

#define CHECK(condition)                                                                   \
    do {                                                                                   \
        if (!(condition)) {                                                                \
            fprintf(stderr, "log.c:%d: %s\n", __LINE__, #condition);                       \
            exit(1);                                                                       \
        }                                                                                  \
    } while (0)

/* A replica alone: with the header and the records of its log. */
struct log {
    uint8_t bytes[HEADER + TICKS * TICK];
    size_t size;
};

static uint8_t secret[48];
static uint8_t key[60];

static themis_role role_of(uint32_t height)
{
    themis_role role = {1, 0, 1, 1, 6, 0, 0};
    role.height = height;
    return role;
}

/* Opens a replica with keys of a height over a log, and frees it. Returns the status; `used` is what the call wrote. */
static uint32_t status_of(uint32_t height, const struct log *log, size_t *used)
{
    themis_replica replica = {0};
    themis_role role = role_of(height);
    uint32_t status = themis_open(&replica, &role, secret, key, 1, log->bytes, log->size, used);
    themis_free(&replica);
    return status;
}

/* Prepares a tick, appends its record to the log, and acts on it. */
static void tick(themis_replica *replica, struct log *log)
{
    size_t size;
    uint32_t reason;
    CHECK(themis_prepare_tick(replica, 0) == THEMIS_OK);
    CHECK(themis_record(replica, 0, log->bytes + log->size, sizeof log->bytes - log->size, &size) == THEMIS_OK);
    CHECK(size == TICK);
    log->size += size;
    CHECK(themis_act(replica, &reason) == THEMIS_OK);
}

/* The log of a new replica with keys of a height, after these ticks. */
static struct log log_of(uint32_t height, int ticks)
{
    struct log log = {{0}, 0};
    themis_replica replica = {0};
    themis_role role = role_of(height);
    size_t used, size;
    CHECK(themis_open(&replica, &role, secret, key, 1, log.bytes, 0, &used) == THEMIS_OK && used == 0);
    CHECK(themis_header(&replica, log.bytes, sizeof log.bytes, &size) == THEMIS_OK && size == HEADER);
    log.size = size;
    for (int k = 0; k < ticks; k++)
        tick(&replica, &log);
    themis_free(&replica);
    return log;
}

/* Neither of two heights with the same public key opens the other's log. */
static void check_heights(void)
{
    uint8_t other[60];
    size_t used;
    CHECK(themis_public_key(505, secret, key) == THEMIS_OK);
    CHECK(themis_public_key(510, secret, other) == THEMIS_OK);
    CHECK(memcmp(key, other, sizeof key) == 0);
    struct log low = log_of(505, 1), high = log_of(510, 0);
    CHECK(status_of(505, &low, &used) == THEMIS_OK && used == low.size);
    CHECK(status_of(510, &low, &used) == THEMIS_OTHER_LOG);
    CHECK(status_of(510, &high, &used) == THEMIS_OK && used == high.size);
    CHECK(status_of(505, &high, &used) == THEMIS_OTHER_LOG);
}

/* A record that is removed, or of another log, is corrupt where it was; a log that is cut off reads as a shorter one. */
static void check_places(void)
{
    size_t used;
    CHECK(themis_public_key(5, secret, key) == THEMIS_OK);
    struct log log = log_of(5, TICKS), removed = log, exchanged = log, cut = log;
    CHECK(status_of(5, &log, &used) == THEMIS_OK && used == log.size);
    memmove(removed.bytes + HEADER + TICK, log.bytes + HEADER + 2 * TICK, TICK);
    removed.size -= TICK;
    CHECK(status_of(5, &removed, &used) == THEMIS_CORRUPT_LOG && used == HEADER + TICK);
    memcpy(exchanged.bytes + HEADER, log.bytes + HEADER + TICK, TICK);
    memcpy(exchanged.bytes + HEADER + TICK, log.bytes + HEADER, TICK);
    CHECK(status_of(5, &exchanged, &used) == THEMIS_CORRUPT_LOG && used == HEADER);
    cut.size -= TICK;
    CHECK(status_of(5, &cut, &used) == THEMIS_OK && used == cut.size);
    secret[0] ^= 1;
    CHECK(themis_public_key(5, secret, key) == THEMIS_OK);
    struct log pasted = log_of(5, 1);
    memcpy(pasted.bytes + HEADER, log.bytes + HEADER, TICK);
    CHECK(status_of(5, &pasted, &used) == THEMIS_CORRUPT_LOG && used == HEADER);
}

int main(void)
{
    for (size_t k = 0; k < sizeof secret; k++)
        secret[k] = (uint8_t)(k * 7 + 3);
    check_heights();
    check_places();
    puts("a log is opened by its own replica alone, and whole");
    return 0;
}
