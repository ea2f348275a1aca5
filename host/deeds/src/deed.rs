//! The deeds, and their names.

use std::fmt;
use std::str::FromStr;

/// What a faulty replica does.
#[derive(Clone, Copy, Debug, PartialEq, Eq)]
pub enum Deed {
    /// Runs two cores with one key over different arrivals.
    TwoHeads,
    /// Changes a byte of the seal of each second message.
    Forge,
    /// Sends its proposals to every second replica only.
    Half,
    /// Sends no proposals.
    Mute,
    /// Receives transactions in the reverse order.
    Reorder,
    /// Sends random frames and messages, and claims to be in the last view.
    Garbage,
    /// Sends again what it received, with or without a flipped bit.
    Stale,
    /// Asks for the last view that it leads, with a good seal.
    Leap,
    /// Asks for each view that it leads, as if all had called for it.
    Climb,
    /// Gives valid blocks of one view without end.
    Flood,
    /// Tells its peers of its own client's transactions alone, with the smallest stamp, and puts them
    /// first in its orders.
    FrontRun,
    /// Tells half of its peers of other transactions than the other half, with the smallest stamps, and
    /// sends proposals that are none.
    Split,
    /// Sends votes without end for a block that nobody has.
    Waste,
    /// Claims to be some views ahead of where it is.
    Boast,
    /// Lets the marker of a session arrive at its start, and tells so.
    EarlyMarker,
    /// Shows every second peer another key for the next session.
    TwoKeys,
    /// Tells those that are behind of another history.
    FalseHistory,
    /// Announces made-up keys of all others for the next session.
    OthersKeys,
}

/// Each deed, with its name in a configuration and on a command line.
const NAMES: [(Deed, &str); 18] = [
    (Deed::TwoHeads, "two_heads"),
    (Deed::Forge, "forge"),
    (Deed::Half, "half"),
    (Deed::Mute, "mute"),
    (Deed::Reorder, "reorder"),
    (Deed::Garbage, "garbage"),
    (Deed::Stale, "stale"),
    (Deed::Leap, "leap"),
    (Deed::Climb, "climb"),
    (Deed::Flood, "flood"),
    (Deed::FrontRun, "front_run"),
    (Deed::Split, "split"),
    (Deed::Waste, "waste"),
    (Deed::Boast, "boast"),
    (Deed::EarlyMarker, "early_marker"),
    (Deed::TwoKeys, "two_keys"),
    (Deed::FalseHistory, "false_history"),
    (Deed::OthersKeys, "others_keys"),
];

impl Deed {
    /// All of them.
    pub fn all() -> impl Iterator<Item = Deed> {
        NAMES.iter().map(|it| it.0)
    }

    /// Whether it is about a change of session, so that there is nothing to do in one session alone.
    pub fn is_over_sessions(self) -> bool {
        matches!(self, Deed::EarlyMarker | Deed::TwoKeys | Deed::FalseHistory | Deed::OthersKeys)
    }

    /// Whether it needs seals over what the library would not seal.
    pub fn seals(self) -> bool {
        matches!(self, Deed::Leap | Deed::Climb | Deed::Flood | Deed::Waste)
    }
}

impl fmt::Display for Deed {
    fn fmt(&self, out: &mut fmt::Formatter) -> fmt::Result {
        let name = NAMES.iter().find(|it| it.0 == *self).map_or("", |it| it.1);
        out.write_str(name)
    }
}

impl FromStr for Deed {
    type Err = String;

    /// The deed of a name, in which `-` may stand for `_`.
    fn from_str(text: &str) -> Result<Deed, String> {
        let name = text.replace('-', "_");
        let found = NAMES.iter().find(|it| it.1 == name);
        found.map(|it| it.0).ok_or_else(|| format!("no deed: {text}"))
    }
}

#[cfg(test)]
mod tests {
    use super::*;

    #[test]
    fn names() {
        for (deed, name) in NAMES {
            assert_eq!((deed.to_string().as_str(), name.parse()), (name, Ok(deed)));
        }
        assert_eq!("two-heads".parse(), Ok(Deed::TwoHeads));
        assert_eq!("".parse::<Deed>(), Err("no deed: ".to_owned()));
        assert_eq!(Deed::all().filter(|it| it.is_over_sessions()).count(), 4);
    }
}
