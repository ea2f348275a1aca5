//! The C interface, as `bindings/c/themis.h` has it. `tools/check-bindings` compares these
//! declarations with the exports of crate `themis_c`.

use std::ffi::c_void;

pub const OK: u32 = 0;
pub const VACANT: u32 = 1;
pub const NO_MEMORY: u32 = 2;
pub const BAD_SETTING: u32 = 3;
pub const BAD_HEIGHT: u32 = 4;
pub const BAD_NUMBER: u32 = 5;
pub const FEW_SEALS: u32 = 6;
pub const KEY_COUNT: u32 = 7;
pub const WRONG_SECRET: u32 = 8;
pub const CORRUPT_LOG: u32 = 9;
pub const LONG: u32 = 10;
pub const UNREADY: u32 = 11;
pub const HALTED: u32 = 12;
pub const NONE: u32 = 13;
pub const SHORT: u32 = 14;
pub const NO_HEADER: u32 = 15;
pub const OTHER_LOG: u32 = 16;
pub const AGAIN: u32 = 17;
pub const BAD_TRACE: u32 = 18;
pub const OTHER_KEYS: u32 = 19;
pub const UNLAWFUL: u32 = 20;
pub const FORGED: u32 = 21;
pub const COLLIDED: u32 = 22;
pub const OTHER_RUN: u32 = 23;
pub const ALREADY_FINAL: u32 = 24;
pub const OTHER_MARKER: u32 = 25;
pub const NOT_CARRIED: u32 = 26;
pub const OTHER_VERIFIER: u32 = 27;

/// `enum themis_taken`.
pub mod taken {
    pub const NEW: u32 = 0;
    pub const HELD: u32 = 1;
    pub const FINAL: u32 = 2;
    pub const FULL: u32 = 3;
    pub const BEYOND: u32 = 4;
}

/// `enum themis_standing`.
pub mod standing {
    pub const UNKNOWN: u32 = 0;
    pub const WAITING: u32 = 1;
    pub const ARRIVED: u32 = 2;
    pub const SETTLED: u32 = 3;
}

/// `themis_replica`: opaque; null, it holds no replica.
#[repr(C)]
pub struct CReplica {
    pub at: *mut c_void,
}

/// `themis_history`: opaque; null, nothing is final in it.
#[repr(C)]
pub struct CHistory {
    pub at: *mut c_void,
}

/// `themis_verifier`: opaque; null, it holds no verifier.
#[repr(C)]
pub struct CVerifier {
    pub at: *mut c_void,
}

/// `themis_role`.
#[repr(C)]
pub struct CRole {
    pub n: u32,
    pub f: u32,
    pub p: u32,
    pub q: u32,
    pub views: u32,
    pub me: u32,
    pub height: u32,
}

/// `themis_run`.
#[repr(C)]
pub struct CRun {
    pub n: u32,
    pub f: u32,
    pub p: u32,
    pub q: u32,
    pub views: u32,
    pub height: u32,
}

/// `themis_tx`.
#[repr(C)]
#[derive(Clone, Copy, Debug, Default, PartialEq, Eq, PartialOrd, Ord, Hash)]
pub struct CTx {
    /// The client that made it.
    pub client: u32,
    /// The client's number of it.
    pub number: u32,
    /// What it carries.
    pub payload: u64,
}

/// `themis_receipt`.
#[repr(C)]
#[derive(Clone, Copy, Debug, Default, PartialEq, Eq)]
pub struct CReceipt {
    /// The transaction.
    pub tx: CTx,
    /// The clock at which it was received.
    pub stamp: u64,
}

/// `themis_finding`.
#[repr(C)]
#[derive(Default)]
pub struct CFinding {
    pub at: u64,
    pub replica: u32,
    pub entry: u32,
    pub rule: u32,
    pub part: u32,
    pub signer: u32,
    pub has_second: u32,
    pub second_replica: u32,
    pub second_entry: u32,
    pub faulty: u32,
}

extern "C" {
    pub fn themis_public_key(height: u32, secret: *const u8, public_key: *mut u8) -> u32;
    pub fn themis_open(
        replica: *mut CReplica,
        role: *const CRole,
        secret: *const u8,
        public_keys: *const u8,
        key_count: usize,
        log: *const u8,
        log_size: usize,
        used: *mut usize,
    ) -> u32;
    pub fn themis_header(
        replica: *mut CReplica,
        into: *mut u8,
        room: usize,
        size: *mut usize,
    ) -> u32;
    pub fn themis_prepare_arrived(replica: *mut CReplica, txs: *const CTx, count: usize) -> u32;
    pub fn themis_prepare_deliver(
        replica: *mut CReplica,
        from: u32,
        bytes: *const u8,
        size: usize,
    ) -> u32;
    pub fn themis_prepare_tick(replica: *mut CReplica, floor: u32) -> u32;
    pub fn themis_would_change(
        replica: *mut CReplica,
        from: u32,
        bytes: *const u8,
        size: usize,
        yes: *mut u32,
    ) -> u32;
    pub fn themis_record(
        replica: *mut CReplica,
        position: usize,
        into: *mut u8,
        room: usize,
        size: *mut usize,
    ) -> u32;
    pub fn themis_act(replica: *mut CReplica, reason: *mut u32) -> u32;
    pub fn themis_sends(replica: *mut CReplica, count: *mut usize) -> u32;
    pub fn themis_send(
        replica: *mut CReplica,
        position: usize,
        to: *mut u32,
        into: *mut u8,
        room: usize,
        size: *mut usize,
    ) -> u32;
    pub fn themis_sealed(replica: *mut CReplica, count: *mut usize) -> u32;
    pub fn themis_statement(
        replica: *mut CReplica,
        position: usize,
        into: *mut u8,
        room: usize,
        size: *mut usize,
    ) -> u32;
    pub fn themis_batches(replica: *mut CReplica, count: *mut usize) -> u32;
    pub fn themis_batch(
        replica: *mut CReplica,
        position: usize,
        into: *mut CTx,
        room: usize,
        count: *mut usize,
    ) -> u32;
    pub fn themis_views(replica: *mut CReplica, view: *mut u32, commit_view: *mut u32) -> u32;
    pub fn themis_known(replica: *mut CReplica, known: *mut u32) -> u32;
    pub fn themis_is_proposed(replica: *mut CReplica, tx: *const CTx, yes: *mut u32) -> u32;
    pub fn themis_gives(replica: *mut CReplica, above: u32, count: *mut usize) -> u32;
    pub fn themis_give(
        replica: *mut CReplica,
        above: u32,
        position: usize,
        into: *mut u8,
        room: usize,
        size: *mut usize,
    ) -> u32;
    pub fn themis_audit(
        trace: *const u8,
        trace_size: usize,
        run: *const CRun,
        public_keys: *const u8,
        key_count: usize,
        finding: *mut CFinding,
    ) -> u32;
    pub fn themis_free(replica: *mut CReplica);
    pub fn themis_submit(replica: *mut CReplica, tx: *const CTx, taken: *mut u32) -> u32;
    pub fn themis_hear(
        replica: *mut CReplica,
        peer: u32,
        receipt: *const CReceipt,
        taken: *mut u32,
    ) -> u32;
    pub fn themis_hear_clock(replica: *mut CReplica, peer: u32, clock: u64) -> u32;
    pub fn themis_restore(replica: *mut CReplica, tx: *const CTx, taken: *mut u32) -> u32;
    pub fn themis_settle(replica: *mut CReplica, txs: *const CTx, count: usize) -> u32;
    pub fn themis_accepted(replica: *mut CReplica, bytes: *const u8, size: usize) -> u32;
    pub fn themis_arrive(
        replica: *mut CReplica,
        into: *mut CTx,
        room: usize,
        count: *mut usize,
        given: *mut usize,
    ) -> u32;
    pub fn themis_arrive_proposed(
        replica: *mut CReplica,
        into: *mut CTx,
        room: usize,
        count: *mut usize,
    ) -> u32;
    pub fn themis_receipts(
        replica: *mut CReplica,
        after: u64,
        into: *mut CReceipt,
        room: usize,
        count: *mut usize,
    ) -> u32;
    pub fn themis_standing(replica: *mut CReplica, tx: *const CTx, standing: *mut u32) -> u32;
    pub fn themis_clock(replica: *mut CReplica, clock: *mut u64) -> u32;
    pub fn themis_held(
        replica: *mut CReplica,
        held: *mut usize,
        waiting: *mut usize,
        own: *mut u64,
    ) -> u32;
    pub fn themis_history_add(
        history: *mut CHistory,
        session: u32,
        batch: *const CTx,
        count: usize,
        ended: *mut u32,
        position: *mut usize,
    ) -> u32;
    pub fn themis_history_check(
        history: *mut CHistory,
        session: u32,
        before: *const CTx,
        before_count: usize,
        arrived: *const CTx,
        arrived_count: usize,
        position: *mut usize,
    ) -> u32;
    pub fn themis_history_carried(
        history: *mut CHistory,
        arrived: *const CTx,
        arrived_count: usize,
        into: *mut CTx,
        room: usize,
        count: *mut usize,
    ) -> u32;
    pub fn themis_history_free(history: *mut CHistory);
    pub fn themis_verifier_new(
        verifier: *mut CVerifier,
        height: u32,
        public_keys: *const u8,
        key_count: usize,
    ) -> u32;
    pub fn themis_verify(
        verifier: *mut CVerifier,
        view: u32,
        from: u32,
        bytes: *const u8,
        size: usize,
        share: u32,
        shares: u32,
        kept: *mut usize,
    ) -> u32;
    pub fn themis_take_verified(replica: *mut CReplica, verifier: *mut CVerifier) -> u32;
    pub fn themis_verifier_free(verifier: *mut CVerifier);
}
