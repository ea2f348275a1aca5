//! Transactions as text (client.number.payload) and as the 16 bytes of messages and logs.

pub use themis::Tx;

/// Bytes of a transaction.
pub const TX_BYTES: usize = 16;

/// Appends the bytes of a transaction.
pub fn put(tx: &Tx, out: &mut Vec<u8>) {
    out.extend_from_slice(&tx.client.to_be_bytes());
    out.extend_from_slice(&tx.number.to_be_bytes());
    out.extend_from_slice(&tx.payload.to_be_bytes());
}

/// The transactions of whole 16 bytes each; what is left over is ignored.
pub fn txs_of(data: &[u8]) -> impl Iterator<Item = Tx> + '_ {
    data.chunks_exact(TX_BYTES).map(|it| Tx {
        client: u32::from_be_bytes([it[0], it[1], it[2], it[3]]),
        number: u32::from_be_bytes([it[4], it[5], it[6], it[7]]),
        payload: u64::from_be_bytes(it[8..].try_into().unwrap_or_default()),
    })
}

/// The transaction that a text spells: three decimal numbers without leading zeros.
pub fn parse(text: &str) -> Option<Tx> {
    let mut parts = text.split('.');
    let tx = Tx {
        client: number(parts.next()?)?,
        number: number(parts.next()?)?,
        payload: number(parts.next()?)?,
    };
    parts.next().is_none().then_some(tx)
}

fn number<N: std::str::FromStr>(text: &str) -> Option<N> {
    let is_plain = text.bytes().all(|it| it.is_ascii_digit());
    let is_short = text == "0" || !text.starts_with('0');
    if is_plain && is_short {
        text.parse().ok()
    } else {
        None
    }
}

/// Appends the text of a transaction.
pub fn write(tx: &Tx, out: &mut String) {
    use std::fmt::Write;
    // Writing to a string never fails.
    let _ = write!(out, "{}.{}.{}", tx.client, tx.number, tx.payload);
}

#[cfg(test)]
mod tests {
    use super::*;

    #[test]
    fn text_and_bytes() {
        let tx = Tx { client: 1, number: 20, payload: 300 };
        assert_eq!(parse("1.20.300"), Some(tx));
        let mut bytes = Vec::new();
        put(&tx, &mut bytes);
        assert_eq!(txs_of(&bytes).collect::<Vec<_>>(), [tx]);
        for bad in ["", "1.2", "1.2.3.4", "01.2.3", "+1.2.3", "4294967296.0.0", "1..2"] {
            assert_eq!(parse(bad), None, "{bad}");
        }
    }
}
