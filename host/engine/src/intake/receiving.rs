//! What clients and peers bring: it is received immediately, or once receipts are stamped.

use themis::{Error, Receipt, Standing, Taken, Tx};

use super::{Desk, Intake, Note, Source, Waiting};

/// Receipts of peers that wait at a start.
const MAX_EARLY: usize = 16_384;

impl Intake {
    /// Takes what a client sent; returns how many are new here.
    pub fn submit(&mut self, desk: &mut impl Desk, txs: &[Tx]) -> Result<usize, Error> {
        if !self.is_open {
            let mut receipts = Vec::new();
            for tx in txs {
                if desk.standing(tx)? == Standing::Unknown {
                    receipts.push(Receipt { tx: *tx, stamp: 0 });
                    self.own.put(*tx);
                    self.is_of_client_too(tx);
                }
            }
            let new = receipts.len();
            self.early.push((self.place.me, receipts));
            return Ok(new);
        }
        let mut new = 0;
        for tx in txs {
            match self.submit_one(desk, tx)? {
                Taken::New => {
                    new += 1;
                    self.own.put(*tx);
                }
                Taken::Held => self.is_of_client_too(tx),
                Taken::Full | Taken::Final | Taken::Beyond | Taken::Unknown(_) => {}
            }
        }
        Ok(new)
    }

    fn submit_one(&mut self, desk: &mut impl Desk, tx: &Tx) -> Result<Taken, Error> {
        let taken = desk.submit(tx)?;
        match taken {
            Taken::New => {
                self.held.own += 1;
                self.received(*tx);
            }
            Taken::Full => {
                self.forget(tx);
                self.full.insert(*tx);
            }
            Taken::Held | Taken::Final | Taken::Beyond | Taken::Unknown(_) => {}
        }
        Ok(taken)
    }

    /// An own client submitted what a peer may have told of: it waits here whatever the peer does.
    fn is_of_client_too(&mut self, tx: &Tx) {
        self.told.remove(tx);
        if self.lent.remove(tx) {
            self.own.put(*tx);
        }
    }

    /// What waited in the session before, in its order. What a peer alone told of comes in its place
    /// too, since who comes first must not change with the session; it counts as that peer's still.
    pub fn resume(&mut self, desk: &mut impl Desk, waiting: &[Waiting]) -> Result<(), Error> {
        let is_told = |it: &Waiting| matches!(it.source, Source::Peer(_));
        // The own clients' come first where there is not room for all.
        let own = waiting.iter().filter(|it| !is_told(it)).count();
        let mut room = self.own_room().saturating_sub(own);
        let mut receipts = Vec::with_capacity(waiting.len());
        for Waiting { tx, source } in waiting {
            if desk.standing(tx)? != Standing::Unknown {
                continue;
            }
            match source {
                Source::Client => self.own.put(*tx),
                Source::Peer(_) if room == 0 => continue,
                Source::Peer(peer) => {
                    room -= 1;
                    self.told.insert(*tx, *peer);
                    self.lent.insert(*tx);
                }
                Source::Other => {}
            }
            receipts.push(Receipt { tx: *tx, stamp: 0 });
        }
        self.early.push((self.place.me, receipts));
        if self.is_open {
            self.open(desk)?;
        }
        Ok(())
    }

    /// Takes receipts of a peer, with their stamps, and its clock. What finds no room is dropped:
    /// the peer reports it again while it waits there.
    pub fn hear(
        &mut self,
        desk: &mut impl Desk,
        peer: u32,
        receipts: Vec<Receipt>,
        clock: u64,
    ) -> Result<(), Error> {
        desk.hear_clock(peer, clock)?;
        self.heard |= 1 << peer;
        if self.is_open {
            return self.hear_receipts(desk, peer, &receipts);
        }
        if self.early_of(|it| it != self.place.me) < MAX_EARLY {
            self.early.push((peer, receipts));
        }
        if self.heard.count_ones() + 1 >= self.place.quorum() {
            self.open(desk)?;
        }
        Ok(())
    }

    /// The same once receipts are stamped.
    pub(crate) fn hear_receipts(
        &mut self,
        desk: &mut impl Desk,
        peer: u32,
        receipts: &[Receipt],
    ) -> Result<(), Error> {
        for it in receipts {
            let taken = desk.hear(peer, it)?;
            if taken == Taken::New {
                self.told.insert(it.tx, peer);
                self.received(it.tx);
            }
            if matches!(taken, Taken::New | Taken::Held | Taken::Final) {
                self.may_arrive = true;
                self.note(Note::Heard(peer, it.tx));
            }
        }
        Ok(())
    }

    /// The library received one more.
    fn received(&mut self, tx: Tx) {
        self.may_arrive = true;
        self.held.all += 1;
        self.held.waiting += 1;
        self.received.push(tx);
        self.note(Note::Received(tx));
    }

    pub(super) fn early_of(&self, is_one: impl Fn(u32) -> bool) -> usize {
        let of = self.early.iter().filter(|(source, _)| is_one(*source));
        of.map(|(_, receipts)| receipts.len()).sum()
    }

    /// Whether receipts are stamped.
    pub fn is_open(&self) -> bool {
        self.is_open
    }

    /// From now on receipts are stamped. After a start they wait until enough peers have reported
    /// their clocks, or for a moment: else the clock would start again from 0, and what comes now
    /// would seem to have come before what waits everywhere.
    pub fn open(&mut self, desk: &mut impl Desk) -> Result<(), Error> {
        (self.is_open, self.may_arrive) = (true, true);
        for (source, receipts) in std::mem::take(&mut self.early) {
            if source == self.place.me {
                for Receipt { tx, .. } in receipts {
                    // Where a peer's came first, the library holds it as that peer's.
                    let is_held = self.submit_one(desk, &tx)? == Taken::Held;
                    if is_held && !self.lent.remove(&tx) {
                        self.told.remove(&tx);
                    }
                }
            } else {
                self.hear_receipts(desk, source, &receipts)?;
            }
        }
        for data in std::mem::take(&mut self.early_blocks) {
            self.block_accepted(desk, &data)?;
        }
        Ok(())
    }

    /// What was received and has not arrived, in its order.
    pub fn waiting(&self, desk: &mut impl Desk) -> Result<Vec<Waiting>, Error> {
        let mut out = Vec::new();
        for Receipt { tx, .. } in desk.receipts(0, self.held.all)? {
            if desk.standing(&tx)? == Standing::Waiting {
                out.push(tx);
            }
        }
        let early = self.early.iter().filter(|(source, _)| *source == self.place.me);
        out.extend(early.flat_map(|(_, receipts)| receipts).map(|it| it.tx));
        Ok(out.into_iter().map(|tx| Waiting { tx, source: self.source_of(&tx) }).collect())
    }

    fn source_of(&self, tx: &Tx) -> Source {
        match self.told.get(tx) {
            _ if self.own.has(tx) => Source::Client,
            Some(peer) => Source::Peer(*peer),
            None => Source::Other,
        }
    }
}
