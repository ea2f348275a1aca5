//! The conduct of a faulty replica.

use std::time::{SystemTime, UNIX_EPOCH};

use bytes::Bytes;
use rand::{Rng, SeedableRng};
use rand_chacha::ChaCha8Rng;
use themis::Error;
use themis_deeds::{Actor, Deed, Deeds, Faulty, Owner, Sends, EVERY};
use themis_engine::frame::Frame;
use themis_engine::setting::Place;
use themis_engine::{Engine, Time};
use themisd::{Conduct, Opened, Timed};

/// What a replica does.
#[derive(Clone)]
pub struct Misconduct {
    named: Vec<Deed>,
    is_over_sessions: bool,
    deeds: Deeds,
    rng: ChaCha8Rng,
    act_at: Time,
}

/// Other numbers at each start.
fn drawn() -> ChaCha8Rng {
    let since = SystemTime::now().duration_since(UNIX_EPOCH).unwrap_or_default();
    ChaCha8Rng::seed_from_u64(since.as_nanos() as u64 ^ u64::from(std::process::id()) << 32)
}

fn named(deeds: &[String], is_over_sessions: bool) -> Result<Vec<Deed>, String> {
    let named: Vec<Deed> = deeds.iter().map(|it| it.parse()).collect::<Result<_, _>>()?;
    match named.iter().find(|it| it.is_over_sessions() && !is_over_sessions) {
        Some(deed) => Err(format!("the deed {deed} needs sessions = true")),
        None if named.is_empty() => Err("deeds is empty: themisd runs this replica".to_owned()),
        None => Ok(named),
    }
}

impl Conduct for Misconduct {
    const NAME: &'static str = "themisd-faulty";
    type Core = Faulty<Timed>;

    fn of(deeds: &[String], place: Place, is_over_sessions: bool) -> Result<Misconduct, String> {
        let named = named(deeds, is_over_sessions)?;
        tracing::warn!(deeds = deeds.join(","), "this is a FAULTY replica, for tests alone");
        let mut rng = drawn();
        // In one session the numbers of its own client are others than before a crash.
        let last_number = if is_over_sessions { 0 } else { rng.gen::<u16>().into() };
        let actor = Actor { me: place.me, n: place.n, views: place.views, last_number };
        let deeds = Deeds::new(&named, &actor);
        Ok(Misconduct { named, is_over_sessions, deeds, rng, act_at: Time::default() })
    }

    fn core(&self, core: Timed, opened: &Opened) -> Result<Faulty<Timed>, Error> {
        let Opened { session, role, secret, .. } = *opened;
        let owner = Owner { me: role.me, session, height: role.height, secret };
        Faulty::new(core, &self.named, &owner, || Ok(opened.replica()?.0))
    }

    fn timed(core: &mut Faulty<Timed>) -> &mut Timed {
        core.inner()
    }

    fn receive(&mut self, frame: &Frame) {
        self.deeds.receive(frame);
    }

    fn send(&mut self, to: u32, frame: Bytes) -> Option<Bytes> {
        if self.is_over_sessions {
            self.deeds.send_of_many(to, frame)
        } else {
            self.deeds.send(to, frame)
        }
    }

    fn act(&mut self, engine: &mut Engine<Faulty<Timed>>, now: Time) -> Result<Sends, Error> {
        if now < self.act_at {
            return Ok(Sends::new());
        }
        self.act_at = now + EVERY;
        self.deeds.act(engine, now, &mut self.rng)
    }
}

#[cfg(test)]
mod tests {
    use super::*;

    fn refusal(deeds: &[&str], is_over_sessions: bool) -> String {
        let deeds: Vec<String> = deeds.iter().map(ToString::to_string).collect();
        let place = Place { me: 4, n: 5, f: 1, views: 50 };
        Misconduct::of(&deeds, place, is_over_sessions).err().unwrap_or_default()
    }

    #[test]
    fn which_deeds_it_does() {
        for is_over_sessions in [false, true] {
            assert_eq!(refusal(&["two_heads", "waste"], is_over_sessions), "");
            assert_eq!(refusal(&["kind"], is_over_sessions), "no deed: kind");
            let empty = "deeds is empty: themisd runs this replica";
            assert_eq!(refusal(&[], is_over_sessions), empty);
        }
        assert_eq!(refusal(&["mute", "two_keys"], true), "");
        assert_eq!(refusal(&["two_keys"], false), "the deed two_keys needs sessions = true");
    }
}
