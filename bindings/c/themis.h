/* themis.h: one replica of Themis for C, and so for C++, Rust, Go, Java and Python.
 *
 * The library is a state machine: it has no sockets, no clock, no files and no threads. A host gives it one event at a time,
 * logs each event that changes the replica before the replica acts on it, and sends the messages that the turn returns.
 *
 *     themis_replica r = {0};
 *     themis_open(&r, &role, secret, public_keys, n, log, log_size, &used);   // then truncate the log file to `used` bytes
 *     if (used == 0)                                                // a new log: its header first
 *         themis_header(&r, header, 76, &size);                     // write it to the log file, and fsync
 *     for each batch of events:
 *         themis_prepare_deliver(&r, from, bytes, size);            // or _arrived, or _tick; one or several
 *         themis_record(&r, i, buffer, room, &size);                // for each: append to the log file; then fsync once
 *         for each of these events, in the same order:
 *             themis_act(&r, &reason);                              // the turn; after THEMIS_AGAIN prepare the event again
 *             themis_sends(&r, &count); themis_send(&r, k, &to, buffer, room, &size);    // send each, in this order
 *     themis_free(&r);
 *
 * AN EVENT THAT WOULD CHANGE NOTHING HAS NO RECORD. A message that is refused, or that asks for a block, is such an event:
 * themis_record writes the size 0, so there is nothing to append, and nothing to sync for its sake. A peer that sends garbage
 * fills no log. Whether an event would change the replica is decided by its state when the event is prepared. Where an
 * earlier event of the same batch has changed that state meanwhile, themis_act may return THEMIS_AGAIN: it did nothing, and the
 * event is no longer prepared. The host prepares it again, after the events that are still prepared.
 *
 * WHAT THE HOST PROMISES. The library cannot check it. If a promise is broken, nothing that is proved holds.
 *  1. A handle is set to {0} before its first call. The host then neither reads nor changes it, and never uses a copy of it.
 *  2. Every pointer is aligned and not NULL (not even for a count of 0: pass any valid address), and leads to initialised
 *     memory of the size that is passed. What a non-const pointer leads to overlaps nothing else that the same call is given.
 *     Nobody else writes that memory, or what a const pointer leads to, during the call.
 *  3. One call at a time on one handle. Two handles share nothing, and may be used at the same time. A handle may move to
 *     another thread between two calls only if a lock, a join or a sequentially consistent atomic orders them.
 *  4. malloc, realloc and free are those of one allocator, aligned as C has it. No call is made from a signal handler, or in
 *     the child of a fork of a process with threads.
 *  5. The declarations below are used as they stand, and no other function of the program has one of these names, or one of
 *     rattle_alloc, rattle_realloc, rattle_dealloc.
 *  6. For agreement and fairness, not for safety of memory:
 *     - `from` is below n; the transactions that arrive at one replica differ, and are fewer than 2^32.
 *     - `secret` is 48 random bytes drawn for this replica alone, kept secret, and used by one running replica.
 *     - The log starts with the 76 bytes of themis_header, which were made durable before the first record was appended.
 *     - Before themis_act, the record of the event that was prepared first was appended to the log and made durable, if it has
 *       one. Records are appended in the order in which their events were prepared, after the `used` bytes of the opening, or
 *       after the header where these were 0.
 *     - `log` is what is durable: a prefix of what was written, with all bytes whose fsync had returned. A log that was lost
 *       is not replaced by an empty one: that replica is given up, with its secret.
 *
 * WHAT HOLDS THEN, and is proved of the archive's code: each call that returns THEMIS_OK did what the comment at it says (of
 * themis_arrive and themis_arrive_proposed, which of those that wait they choose is tested, and not proved). Each
 * call that returns anything else left the replica as it was, except THEMIS_HALTED and THEMIS_AGAIN of themis_act, and
 * THEMIS_NO_MEMORY of themis_accepted and themis_arrive, and left the buffer `into` as it was. After THEMIS_HALTED read only what
 * the last turn gave, and free the replica. A call on a vacant handle, {0},
 * returns THEMIS_VACANT. `size` and `count` are also meant with THEMIS_SHORT, and `used` with THEMIS_CORRUPT_LOG. With
 * THEMIS_NO_MEMORY `size` and `count` are as they were. The host reads nothing else that a call may have written which did not
 * return THEMIS_OK. A handle that holds a replica holds one until themis_free.
 *
 * A call returns one of the statuses that are listed at it, and no other. A status other than THEMIS_OK and THEMIS_NO_MEMORY is
 * returned exactly where its cause holds; where several hold, the first one listed counts. THEMIS_NO_MEMORY takes the place of
 * THEMIS_OK alone, except where the comment at a call says more. Calls that do not list it allocate nothing.
 *
 * Two theorems hold of every host that keeps promise 6, however often it crashes (crates/host_laws; docs/EMBEDDING.md):
 *  - No leaf of the replica's key seals two statements (a_hosts_leaves_seal_once).
 *  - If at most f of n replicas have no such host, no seal is forged and no two blocks have the same digest, then the final
 *    batches of the others agree, hold each transaction once, are complete and fair. What a replica returned as its final
 *    batches is a prefix of what it returns later, also after a crash (hosted_replicas_are_ordered).
 */
#ifndef THEMIS_H
#define THEMIS_H
#include <stddef.h>
#include <stdint.h>
#ifdef __cplusplus
extern "C" {
#endif

/* Opaque. {0} is vacant: it holds no replica. */
typedef struct themis_replica {
    void *at;
} themis_replica;

/* What a replica is in a run: n replicas, of which f may be faulty, with fairness p/q (1 <= n <= 16, 1/2 < p/q <= 1,
 * q <= 1000, n(2p-q) > 4fq); `views`, the last view of the run; `me`, this replica's number, below n; and the height of all
 * keys. The keys give 5 seals for each view: at most 6 views with height 5, 204 with 10 and 505, 6553 with 510. */
typedef struct themis_role {
    uint32_t n, f, p, q;
    uint32_t views, me;
    uint32_t height;
} themis_role;

/* The run that an auditor expects, as in themis_role: its setting, its last view, and the height of all keys. */
typedef struct themis_run {
    uint32_t n, f, p, q;
    uint32_t views;
    uint32_t height;
} themis_run;

typedef struct themis_tx {
    uint32_t client, number;
    uint64_t payload;
} themis_tx;

/* A transaction that a replica received, with the stamp of its clock. */
typedef struct themis_receipt {
    themis_tx tx;
    uint64_t stamp;
} themis_receipt;

/* One tree of 5 or 10 levels; or a top tree of 5 levels, and lower trees of 5 or 10. */
enum themis_height {
    THEMIS_HEIGHT_5 = 5,
    THEMIS_HEIGHT_10 = 10,
    THEMIS_HEIGHT_5_5 = 505,
    THEMIS_HEIGHT_5_10 = 510
};

enum themis_status {
    THEMIS_OK = 0,
    THEMIS_VACANT = 1,       /* the handle holds no replica */
    THEMIS_NO_MEMORY = 2,    /* malloc or realloc returned NULL: nothing was changed, and the call may be made again */
    THEMIS_BAD_SETTING = 3,  /* n, f, p and q are no valid setting */
    THEMIS_BAD_HEIGHT = 4,   /* the height is none of the four */
    THEMIS_BAD_NUMBER = 5,   /* `me` is not below n */
    THEMIS_FEW_SEALS = 6,    /* the keys have fewer than 5 seals for each view */
    THEMIS_KEY_COUNT = 7,    /* there is not one public key for each replica */
    THEMIS_WRONG_SECRET = 8, /* the public key of the secret is not the one at position `me` */
    THEMIS_CORRUPT_LOG = 9,  /* at the byte of the log that is written into `used` is a whole record that is no event's */
    THEMIS_LONG = 10,        /* the event does not fit a record: 2^28 transactions, a sender above 255, or 4 GB */
    THEMIS_UNREADY = 11,     /* no event is prepared */
    THEMIS_HALTED = 12,      /* memory ran out in a turn. Free the replica, and open it again from its log */
    THEMIS_NONE = 13,        /* there is none at this position */
    THEMIS_SHORT = 14,       /* the buffer is too small; the size that it needs is written */
    THEMIS_NO_HEADER = 15,   /* the log does not start with a header */
    THEMIS_OTHER_LOG = 16,   /* the log has the header of another setting, other views, another replica or other keys */
    THEMIS_AGAIN = 17        /* the event has no record, and would now change the replica: prepare it again */
};

/* Why a turn did what it did: THEMIS_DONE, or the first test of the event's kind that refused it. */
enum themis_reason {
    THEMIS_DONE = 0,
    THEMIS_BAD_WIRE = 1,
    THEMIS_FOREIGN = 2,
    THEMIS_VIEW_LIMIT = 3,
    THEMIS_NOT_LEADER = 4,
    THEMIS_OLD_VIEW = 5,
    THEMIS_BAD_SEAL = 6,
    THEMIS_BAD_CERT = 7,
    THEMIS_ORPHAN = 8,
    THEMIS_MISFIT = 9,
    THEMIS_CLASH = 10,
    THEMIS_UNSAFE = 11,
    THEMIS_REPEAT = 12
};

/* The public key of the key that grows from a secret: bytes 0 to 15 are its identifier, which the public key and the seals
 * show, and 16 to 47 its secret seed. Growing a tree of 10 levels takes a second or so. Status: BAD_HEIGHT, OK, NO_MEMORY. */
uint32_t themis_public_key(uint32_t height, const uint8_t secret[48], uint8_t public_key[60]);

/* A replica that stands where its turns on the events of the log lead. `public_keys` are those of all replicas, 60 bytes each,
 * key i for replica i; `key_count` counts keys, not bytes. `log` is the whole log, with its header. `used` is how many bytes of
 * it the header and the whole records are: truncate the log there before anything is appended. An empty log, or a part of the
 * header, makes a new replica: `used` is 0 then, and the header is written first. What the turns on the log send is not sent
 * again. With OK, a replica that the handle held is freed. Status: BAD_SETTING, BAD_HEIGHT, BAD_NUMBER, FEW_SEALS, KEY_COUNT,
 * WRONG_SECRET, NO_HEADER, OTHER_LOG, CORRUPT_LOG, OK; NO_MEMORY, also in place of the four before OK: the key has to grow
 * from the secret first, and a log is read into memory. */
uint32_t themis_open(themis_replica *replica, const themis_role *role, const uint8_t secret[48], const uint8_t *public_keys,
                     size_t key_count, const uint8_t *log, size_t log_size, size_t *used);

/* Copies the header of the replica's log, of 76 bytes: it says whose log it is, and the height of all keys. Status: VACANT, SHORT,
 * OK. */
uint32_t themis_header(themis_replica *replica, uint8_t *into, size_t room, size_t *size);

/* Prepares an event, as the last of those that are prepared. Status: VACANT, LONG, HALTED, OK, NO_MEMORY. */
uint32_t themis_prepare_arrived(themis_replica *replica, const themis_tx *txs, size_t count);
uint32_t themis_prepare_deliver(themis_replica *replica, uint32_t from, const uint8_t *bytes, size_t size);
uint32_t themis_prepare_tick(themis_replica *replica, uint32_t floor);

/* Whether the turn on these bytes, sent by replica `from`, would change the replica now: 1 or 0. Nothing is prepared. The seals
 * are checked, and remembered for the turn. A host asks this before it counts on a block that a leader proposes. Status: OK,
 * VACANT, LONG, HALTED, NO_MEMORY. */
uint32_t themis_would_change(themis_replica *replica, uint32_t from, const uint8_t *bytes, size_t size, uint32_t *yes);

/* Copies the record of the prepared event at a position: 0 is the one that the replica acts on next. The size is 0 where the
 * event has no record, since it would change nothing. Status: VACANT, NONE, SHORT, OK. */
uint32_t themis_record(themis_replica *replica, size_t position, uint8_t *into, size_t room, size_t *size);

/* The turn on the event that was prepared first. AGAIN: the event has no record, and would now change the replica. It is no
 * longer prepared, and nothing else was done. Status: VACANT, UNREADY, HALTED, AGAIN, OK; NO_MEMORY for an event without a
 * record, also in place of AGAIN: it is still prepared. Where memory runs out in the turn on an event with a record, HALTED: what the
 * last turn gave is still there. A lack of memory changes nothing for bytes that are no message, for a message that is refused before
 * a copy of it is made, and for a tick at the last view. */
uint32_t themis_act(themis_replica *replica, uint32_t *reason);

/* The messages that the last turn sends, in their order. Messages to the replica itself are among them, and are delivered like
 * others. Status: VACANT, OK; of the second VACANT, NONE, SHORT, OK. */
uint32_t themis_sends(themis_replica *replica, size_t *count);
uint32_t themis_send(themis_replica *replica, size_t position, uint32_t *to, uint8_t *into, size_t room, size_t *size);

/* The statements that the last turn sealed, in their order. Status: VACANT, OK; of the second VACANT, NONE, SHORT, OK. */
uint32_t themis_sealed(themis_replica *replica, size_t *count);
uint32_t themis_statement(themis_replica *replica, size_t position, uint8_t *into, size_t room, size_t *size);

/* The final batches. The list only grows, also over a crash, while at most f replicas are faulty, no seal is forged and no two
 * blocks have the same digest. `count` is of batches, then of the transactions of one; within a batch their order has no
 * meaning. Status: VACANT, OK, NO_MEMORY; of the second VACANT, NONE, SHORT, OK, NO_MEMORY, the last also in place of NONE and
 * SHORT: the batches may have to be computed anew. */
uint32_t themis_batches(themis_replica *replica, size_t *count);
uint32_t themis_batch(themis_replica *replica, size_t position, themis_tx *into, size_t room, size_t *count);

/* The replica's view, and the view of its committed block. Status: VACANT, OK. */
uint32_t themis_views(themis_replica *replica, uint32_t *view, uint32_t *commit_view);

/* How many transactions arrived at the replica. Status: VACANT, OK. */
uint32_t themis_known(themis_replica *replica, uint32_t *known);

/* Whether a transaction is proposed in the chain that ends in the block of the highest certificate: 1 or 0. It is not final yet
 * for that. Status: VACANT, OK, NO_MEMORY. */
uint32_t themis_is_proposed(themis_replica *replica, const themis_tx *tx, uint32_t *yes);

/* The stored blocks of views above `above`, each as the Give message that a replica sends when it is asked for the block, in the
 * order in which they were stored: each after the block that it extends. A replica that fell behind is sent them, in this order;
 * `above` is a view up to which it has all blocks, or 0. Status: VACANT, OK; of the second VACANT, NONE, SHORT, OK, NO_MEMORY, the
 * last also in place of SHORT. */
uint32_t themis_gives(themis_replica *replica, uint32_t above, size_t *count);
uint32_t themis_give(themis_replica *replica, uint32_t above, size_t position, uint8_t *into, size_t room, size_t *size);

/* Frees the replica, if there is one. The handle is vacant then. */
void themis_free(themis_replica *replica);

/* ---- Receipt. A host that orders by receipt passes on what it receives here, and lets arrive what themis_arrive returns. It may
 * also decide by itself what arrives when (themis_prepare_arrived), and make none of these calls.
 *
 *     themis_submit(&r, &tx, &taken);                      // a client's transaction
 *     themis_hear(&r, peer, &receipt, &taken);             // what a peer reports, in its order; its clock: themis_hear_clock
 *     themis_receipts(&r, after, into, room, &count);      // the own receipts for the peers, with themis_clock
 *     themis_accepted(&r, bytes, size);                    // a Propose or a Give, after the turn that stored its block
 *     themis_settle(&r, txs, count);                       // batches that have become final
 *     themis_arrive(&r, into, 480, &count, &given);        // what arrives now: themis_prepare_arrived(&r, into, count)
 *
 * After themis_open the host settles what is final, and restores what arrived by the events of the log, in their order. The calls
 * change nothing but what the replica received and heard: no turn, no record. What is received is not durable: a transaction
 * is durable once the record of its arrival is.
 *
 * The promise (crates/intake_laws, receipts_decide): where every honest replica received b after it had heard of a from all
 * honest replicas, no honest replica's final list has b before a, if b was solid when it was proposed or is in a's proposal, and
 * neither was an exception. */

/* The answer to a transaction. */
enum themis_taken {
    THEMIS_NEW = 0,    /* it is received now */
    THEMIS_HELD = 1,   /* it was received before */
    THEMIS_FINAL = 2,  /* it is final */
    THEMIS_FULL = 3,   /* its source has as many held as it may, or the clock is used up: it is not received */
    THEMIS_BEYOND = 4  /* a peer's stamp is one that no honest clock reaches: nothing was changed */
};

/* What is known of a transaction. */
enum themis_standing {
    THEMIS_UNKNOWN = 0,
    THEMIS_WAITING = 1, /* received, and not arrived */
    THEMIS_ARRIVED = 2,
    THEMIS_SETTLED = 3
};

/* A transaction of an own client. At most 16,384 of them are held. Status: VACANT, OK, NO_MEMORY. */
uint32_t themis_submit(themis_replica *replica, const themis_tx *tx, uint32_t *taken);

/* A receipt that a peer reports. It is received here too, if it is new, and the peer was the first to report fewer than 4,096 of
 * those that are held. Pass on a peer's receipts in the order in which it reports them. Status: VACANT, BAD_NUMBER where `peer` is
 * not below n, OK, NO_MEMORY. */
uint32_t themis_hear(themis_replica *replica, uint32_t peer, const themis_receipt *receipt, uint32_t *taken);

/* The clock that a peer reports. One that no honest replica reaches changes nothing. Status: VACANT, BAD_NUMBER where `peer` is not
 * below n, OK. */
uint32_t themis_hear_clock(themis_replica *replica, uint32_t peer, uint64_t clock);

/* A transaction that arrived before the replica was opened. It does not arrive again. Status: VACANT, OK, NO_MEMORY. */
uint32_t themis_restore(themis_replica *replica, const themis_tx *tx, uint32_t *taken);

/* Transactions that are final. They are no longer held, and are not received again. Status: VACANT, OK, NO_MEMORY. */
uint32_t themis_settle(themis_replica *replica, const themis_tx *txs, size_t count);

/* The message of a block that a turn stored. What more than f of its lists hold is received, and may arrive out of its turn, but
 * nothing that waits then has a key below the (f+1)-th smallest stamp of it. Status: VACANT, NONE where it is no Propose and no
 * Give, OK, NO_MEMORY: some of them may not be received then. */
uint32_t themis_accepted(themis_replica *replica, const uint8_t *bytes, size_t size);

/* What arrives now, at most 480, in the order in which the host passes them to themis_prepare_arrived, at the next event.
 * The last `given` of the `count` are exceptions: they arrive because the chain was stuck, whatever waits. None is returned that
 * had arrived or is final, and none twice. The calls that follow take all of them as arrived. Status: VACANT, SHORT where `room` is below 480 (`count` is not written then), OK, NO_MEMORY: nothing
 * has arrived then, and some transactions of blocks may have been received. */
uint32_t themis_arrive(themis_replica *replica, themis_tx *into, size_t room, size_t *count, size_t *given);

/* The same while a session is closing, where nothing more is to be received: only what blocks name and the certified chain proposes,
 * with all that wait and have smaller keys. There are no exceptions. Status: VACANT, SHORT where `room` is below 480, OK,
 * NO_MEMORY. */
uint32_t themis_arrive_proposed(themis_replica *replica, themis_tx *into, size_t room, size_t *count);

/* The own receipts of held transactions with a stamp above `after`, in their order, as many as fit. A host reports them to its
 * peers, each after the last one that it reported, with its clock. Status: VACANT, OK, NO_MEMORY. */
uint32_t themis_receipts(themis_replica *replica, uint64_t after, themis_receipt *into, size_t room, size_t *count);

/* What is known of a transaction: a themis_standing. Status: VACANT, OK. */
uint32_t themis_standing(themis_replica *replica, const themis_tx *tx, uint32_t *standing);

/* The replica's clock: the stamp of its last receipt. Status: VACANT, OK. */
uint32_t themis_clock(themis_replica *replica, uint64_t *clock);

/* How many transactions are held: received and not final; how many of them wait; and how many came from own clients. Status:
 * VACANT, OK. */
uint32_t themis_held(themis_replica *replica, size_t *held, size_t *waiting, uint64_t *own);

/* ---- Audits. They need no replica: any program that has a trace, and knows the run and its public keys, may call this.
 *
 * Statuses of themis_audit, besides THEMIS_OK, THEMIS_NO_MEMORY, THEMIS_BAD_SETTING and THEMIS_BAD_HEIGHT. */
enum themis_audit_status {
    THEMIS_BAD_TRACE = 18,  /* the bytes are no trace: a field is faulty at the byte `at` */
    THEMIS_OTHER_KEYS = 19, /* the trace has other public keys, or the seed of its keys */
    THEMIS_UNLAWFUL = 20,   /* an honest replica breaks a rule */
    THEMIS_FORGED = 21,     /* each honest replica conforms to the protocol, and a seal is forged */
    THEMIS_COLLIDED = 22,   /* each honest replica conforms to the protocol, and two blocks have the same digest */
    THEMIS_OTHER_RUN = 23   /* the trace has these public keys, and another setting, other views or another height */
};

/* The place of what an audit finds. The status says which fields are meant, and the others are 0:
 * - BAD_TRACE: `at`, the byte where the first faulty field begins.
 * - UNLAWFUL: `replica`, an `entry` of its journal, and `rule`: 1 to 5, or 6 and 7 after the last entry.
 * - FORGED: the `replica` and the `entry` that received the seal, the `part` of its message, and the `signer` whose seal it
 *   pretends to be.
 * - COLLIDED: the `replica` and the `entry` that received one block and, where `has_second` is 1, `second_replica` and
 *   `second_entry` that received the other. Where it is 0, the other is the first block of every chain.
 * With OK, UNLAWFUL, FORGED and COLLIDED, bit i of `faulty` is 1 where the trace names replica i as faulty, at most f of them.
 * The trace records nothing of these, and the audit claims nothing of them: whether others are faulty too, no trace can say. */
typedef struct themis_finding {
    uint64_t at;
    uint32_t replica, entry, rule;
    uint32_t part, signer;
    uint32_t has_second, second_replica, second_entry;
    uint32_t faulty;
} themis_finding;

/* Audits the run that a trace in the second form records (docs/FORMATS.md, "Traces"), by what the auditor knows of the run: its
 * setting, views and height, and the public keys, 60 bytes each, key i for replica i; `key_count` counts keys, not bytes. Take
 * these from the auditor's own configuration, never from the trace. The trace may have any length.
 *
 * OK: the promise holds of the run. The final batches of the replicas that `faulty` does not name agree, hold each transaction
 * once, and are complete and fair. Each of these replicas conforms to the protocol, no seal is forged, and no two blocks have the
 * same digest. Refused in this order: BAD_SETTING, BAD_HEIGHT, BAD_TRACE, OTHER_KEYS, OTHER_RUN. Status: BAD_SETTING,
 * BAD_HEIGHT, BAD_TRACE, OTHER_KEYS, OTHER_RUN, OK, UNLAWFUL, FORGED, COLLIDED; NO_MEMORY, also in place of any but the first two:
 * the trace is read and checked with memory. `finding` is written with OK, BAD_TRACE, UNLAWFUL, FORGED and COLLIDED, and is as it
 * was with the others. */
uint32_t themis_audit(const uint8_t *trace, size_t trace_size, const themis_run *run, const uint8_t *public_keys,
                      size_t key_count, themis_finding *finding);

/* ---- Sessions that follow one another (docs/PROTOCOL.md, "Rules of sessions"). These calls need no replica. An auditor that has
 * what arrived at each replica in each session, and the final batches, checks by them whether the replicas carried over by the rules.
 *
 *     themis_history h = {0};                                       // nothing is final yet
 *     for each session, in order:
 *         for each replica that is not known to be faulty:          // `before`: what arrived at it in the session before
 *             themis_history_check(&h, session, before, before_count, arrived, arrived_count, &position);
 *         for each final batch of a replica that has ended the session, until `ended` is 1:
 *             themis_history_add(&h, session, batch, count, &ended, &position);
 *     themis_history_free(&h);
 *
 * Promises 1 to 5 are also those of this handle. A call that does not return THEMIS_OK leaves the history as it was.
 *
 * The law (crates/session_laws, audited_services_serve): suppose that the record of each session is sound, as themis_audit says with
 * THEMIS_OK; that each session's batches are those of a replica that is not faulty, up to the one with the marker; and that
 * themis_history_check returned THEMIS_OK for each replica that is not faulty in the session. Then the premises of the laws over
 * sessions hold: over all sessions the histories of these replicas agree, hold no transaction twice, and are fair. */

/* Opaque: what is final in a chain of sessions. {0} is a history in which nothing is final. */
typedef struct themis_history {
    void *at;
} themis_history;

/* Statuses of these calls, besides THEMIS_OK, THEMIS_SHORT and THEMIS_NO_MEMORY. NO_MEMORY may stand in place of each other one. */
enum themis_history_status {
    THEMIS_ALREADY_FINAL = 24, /* the transaction at `position` is in the history */
    THEMIS_OTHER_MARKER = 25,  /* the transaction at `position` is of client 0, and not the session's marker, 0.SESSION.0 */
    THEMIS_NOT_CARRIED = 26    /* what is carried over does not arrive first, in its order */
};

/* Adds a final batch of a session, of which nothing is in the history yet. `ended` is then 1 where the batch holds the session's
 * marker, and otherwise 0: such a batch is the last that counts. Status: ALREADY_FINAL with the position of the first such
 * transaction in the batch, OK, NO_MEMORY. */
uint32_t themis_history_add(themis_history *history, uint32_t session, const themis_tx *batch, size_t count, uint32_t *ended,
                            size_t *position);

/* Checks what arrived at a replica in a session, where the history has what was final before it. `before` is what arrived at the
 * replica in the session before. It is empty where the replica was not in that session, or this is not known: it then counts as
 * faulty there. Status: ALREADY_FINAL and OTHER_MARKER with the position of the first such transaction that arrived, NOT_CARRIED,
 * OK, NO_MEMORY. The first that holds counts. */
uint32_t themis_history_check(themis_history *history, uint32_t session, const themis_tx *before, size_t before_count,
                              const themis_tx *arrived, size_t arrived_count, size_t *position);

/* Copies what a replica carries over: what arrived at it, and is not in the history, in its order. Call it once the session's
 * batches were added. Status: SHORT, OK, NO_MEMORY. */
uint32_t themis_history_carried(themis_history *history, const themis_tx *arrived, size_t arrived_count, themis_tx *into,
                                size_t room, size_t *count);

/* Frees the history. Nothing is final in it then. */
void themis_history_free(themis_history *history);

/* ---- Seals that are checked ahead. To check the seals of a proposal takes most of the time of themis_prepare_deliver. A host with
 * several processors lets verifiers check them before, each on a thread of its own:
 *
 *     themis_verifier v[3] = {{0}, {0}, {0}};
 *     themis_verifier_new(&v[k], role.height, public_keys, n);                  // for each k
 *     for a message of replica `from`:
 *         themis_verify(&v[k], view, from, bytes, size, k, 3, &kept);           // for each k, on thread k; then join them
 *         themis_take_verified(&r, &v[k]);                                      // for each k, on the replica's thread
 *         themis_prepare_deliver(&r, from, bytes, size);                        // checks only what no verifier accepted
 *
 * Promises 1 to 5 are also those of this handle. So a verifier is used by one thread at a time, and no two calls get the same
 * handle at the same time. A call on a replica and a call on a verifier may run at the same time, except themis_take_verified, which
 * gets both. A verifier holds no secret. It changes no answer of a replica: this accepts exactly the seals that fit under its public
 * keys, whatever a verifier kept. */

/* Opaque. {0} is vacant: it holds no verifier. */
typedef struct themis_verifier {
    void *at;
} themis_verifier;

/* The status of themis_take_verified, besides THEMIS_OK and THEMIS_VACANT. */
enum themis_verifier_status {
    THEMIS_OTHER_VERIFIER = 27 /* the verifier has other public keys than the replica, or keys of another height */
};

/* Makes a verifier by the public keys of all replicas, 60 bytes each, key i for replica i; `key_count` counts keys, not bytes. With
 * OK, a verifier that the handle held is freed. Status: BAD_HEIGHT, OK, NO_MEMORY. */
uint32_t themis_verifier_new(themis_verifier *verifier, uint32_t height, const uint8_t *public_keys, size_t key_count);

/* Checks a share of the seals of a message that replica `from` sent, for a replica in this view: those whose number modulo `shares`
 * is `share`, in the order of the message; none where `shares` is 0. The verifier keeps those that fit until its next call of
 * themis_verify, and writes how many these are. It stops at one that does not fit, and checks nothing of a message that is too old
 * for the view or names another sender. Where memory runs out, a seal is not kept. Status: VACANT, OK. */
uint32_t themis_verify(themis_verifier *verifier, uint32_t view, uint32_t from, const uint8_t *bytes, size_t size, uint32_t share,
                       uint32_t shares, size_t *kept);

/* Lets the replica remember the seals that the verifier keeps, the last eight of each replica. The calls that read their message do
 * not check them again. Status: VACANT where one of the handles is vacant, OTHER_VERIFIER, OK. */
uint32_t themis_take_verified(themis_replica *replica, themis_verifier *verifier);

/* Frees the verifier, if there is one. The handle is vacant then. */
void themis_verifier_free(themis_verifier *verifier);

#ifdef __cplusplus
}
#endif
#endif
