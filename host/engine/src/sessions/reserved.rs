//! The clients of the service itself: the one of markers, and one for each replica, by which it
//! announces its next public key. No client port takes their transactions.

use crate::tx::Tx;

/// The client of markers, as `session_rules` has it.
const MARKERS: u32 = 0;
/// Replica i announces its keys as the client of this number plus i. There are at most 16 replicas.
const ANNOUNCERS: u32 = u32::MAX - 15;

/// The transaction that ends a session.
pub const fn marker(session: u32) -> Tx {
    Tx { client: MARKERS, number: session, payload: 0 }
}

/// The client by which a replica announces its keys.
pub const fn announcer(replica: u32) -> u32 {
    ANNOUNCERS + replica
}

/// The replica that announces its keys as this client.
pub const fn announcing(client: u32) -> Option<u32> {
    client.checked_sub(ANNOUNCERS)
}

/// Whether a client is one of the service itself.
pub const fn is_reserved(client: u32) -> bool {
    client == MARKERS || announcing(client).is_some()
}

#[cfg(test)]
mod tests {
    use super::*;

    #[test]
    fn clients_of_the_service() {
        assert!(is_reserved(marker(7).client) && is_reserved(announcer(0)));
        assert!(!is_reserved(1) && !is_reserved(ANNOUNCERS - 1));
        assert_eq!((announcing(announcer(15)), announcing(9)), (Some(15), None));
    }
}
