//! The sealed statements in messages (docs/FORMATS.md, "Messages").

const DIGEST: usize = 32;
const TX: usize = 16;

/// A statement that the sender of a message sealed, and the seal.
#[derive(Clone, Copy, Debug, PartialEq, Eq)]
pub struct Part<'a> {
    /// What is sealed.
    pub statement: &'a [u8],
    /// The seal.
    pub seal: &'a [u8],
}

struct Reader<'a> {
    data: &'a [u8],
    at: usize,
}

impl<'a> Reader<'a> {
    fn skip(&mut self, size: usize) -> Option<()> {
        self.at += size;
        (self.at <= self.data.len()).then_some(())
    }

    fn u8(&mut self) -> Option<usize> {
        self.skip(1)?;
        Some(usize::from(self.data[self.at - 1]))
    }

    fn sized(&mut self, item: usize) -> Option<&'a [u8]> {
        self.skip(2)?;
        let count = u16::from_be_bytes([self.data[self.at - 2], self.data[self.at - 1]]);
        let start = self.at;
        self.skip(usize::from(count) * item)?;
        Some(&self.data[start..self.at])
    }

    fn certificate(&mut self) -> Option<()> {
        self.skip(4 + DIGEST)?;
        for _ in 0..self.u8()? {
            self.skip(1)?;
            self.sized(1)?;
        }
        Some(())
    }

    fn part(&mut self, start: usize) -> Option<Part<'a>> {
        let statement = &self.data[start..self.at];
        Some(Part { statement, seal: self.sized(1)? })
    }

    /// A sealed order.
    fn order(&mut self) -> Option<Part<'a>> {
        let start = self.at;
        self.skip(1 + 1 + 4 + DIGEST)?;
        self.sized(TX)?;
        self.sized(TX)?;
        self.part(start)
    }
}

/// What the sender of a message sealed in it; nothing for bytes that are no message.
pub fn own_parts(data: &[u8]) -> Vec<Part<'_>> {
    read(data).unwrap_or_default()
}

fn read(data: &[u8]) -> Option<Vec<Part<'_>>> {
    let mut it = Reader { data, at: 1 };
    match *data.get(1)? {
        1 | 2 => {
            it.skip(1 + 1 + 4)?;
            it.certificate()?;
            Some(vec![it.part(1)?])
        }
        3 => Some(vec![it.order()?]),
        4 => {
            it.skip(1 + 1 + 4)?;
            it.certificate()?;
            for _ in 0..it.u8()? {
                it.order()?;
            }
            Some(vec![it.part(1)?])
        }
        5 => {
            it.skip(1 + 1 + 4 + DIGEST)?;
            let mut out = vec![it.part(1)?];
            if it.u8()? == 1 {
                out.push(it.order()?);
            }
            Some(out)
        }
        _ => None,
    }
}

/// Where a block ends that starts there.
pub fn block_end(data: &[u8], start: usize) -> Option<usize> {
    let mut it = Reader { data, at: start };
    it.skip(4)?;
    it.certificate()?;
    for _ in 0..it.u8()? {
        it.order()?;
    }
    Some(it.at)
}

/// Where the sealed order of a replica is within a Give; none where it has none.
pub fn order_in_give(give: &[u8], replica: u32) -> Option<(usize, usize)> {
    let mut it = Reader { data: give, at: 2 };
    it.skip(4)?;
    it.certificate()?;
    for _ in 0..it.u8()? {
        let start = it.at;
        it.order()?;
        if u32::from(give[start + 1]) == replica {
            return Some((start, it.at));
        }
    }
    None
}
