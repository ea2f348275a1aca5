//! Faults that tests order.

use std::time::Duration;

use crate::link::Link;
use crate::log::Disk;

/// Makes a fault, of the links or of each disk; none where there is no such fault.
pub fn order<'a>(
    words: &[String],
    links: &[Option<Link>],
    disks: impl Iterator<Item = &'a mut Disk>,
) -> Option<()> {
    let words: Vec<&str> = words.iter().map(String::as_str).collect();
    match words[..] {
        ["cut", ref peers @ ..] => {
            for peer in peers {
                links.get(peer.parse::<usize>().ok()?)?.as_ref()?.set_cut(true);
            }
        }
        ["heal"] => links.iter().flatten().for_each(|it| it.set_cut(false)),
        ["tear", size] => {
            let size = size.parse().ok()?;
            disks.for_each(|it| it.tear_at = Some(size));
        }
        ["full"] => disks.for_each(|it| it.is_full = true),
        ["slow", seconds] => {
            let delay = Duration::try_from_secs_f64(seconds.parse().ok()?).ok()?;
            disks.for_each(|it| it.delay = delay);
        }
        _ => return None,
    }
    Some(())
}
