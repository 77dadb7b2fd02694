//! The units that one arc leaves over, given to its users in turn. A user is its
//! key, tally * base + number, and the smallest keys are served.

/// Every key is below it.
const KEY_LIMIT: u32 = 1 << 20;

/// After so many tries the way is halved.
const TRIES: u32 = 6;

fn count_below(keys: &[u32], bound: u32) -> u32 {
    keys.iter().map(|&key| u32::from(key < bound)).sum()
}

fn ends_of(keys: &[u32]) -> (u32, u32) {
    let (mut least, mut greatest) = (KEY_LIMIT, 0);
    for &key in keys {
        least = if key < least { key } else { least };
        greatest = if greatest < key { key } else { greatest };
    }
    (least, greatest)
}

/// `under` keys are below `low`, no more than there are units, and `over` below
/// `high`, which is more.
struct Bracket {
    low: u32,
    high: u32,
    under: u32,
    over: u32,
}

impl Bracket {
    /// First one tally below the end, then in proportion.
    fn guess(&self, more: u32, base: u32, tries: u32) -> u32 {
        let width = self.high - self.low;
        if tries == 0 && base < width {
            return self.high - base;
        }
        if TRIES <= tries {
            return self.low + width / 2;
        }
        self.low + width * (more - self.under) / (self.over - self.under)
    }

    fn inside(&self, number: u32) -> u32 {
        if self.low < number && number < self.high {
            return number;
        }
        self.low + (self.high - self.low) / 2
    }
}

/// The bound that as many keys are below as there are units.
fn find_bound(keys: &[u32], base: u32, more: u32) -> u32 {
    let (least, greatest) = ends_of(keys);
    let mut at = Bracket {
        low: least,
        high: greatest + 1,
        under: 0,
        over: keys.len() as u32,
    };
    let mut tries = 0;
    while at.under < more {
        let middle = at.inside(at.guess(more, base, tries));
        let count = count_below(keys, middle);
        let high = more < count;
        at.low = if high { at.low } else { middle };
        at.under = if high { at.under } else { count };
        at.high = if high { middle } else { at.high };
        at.over = if high { count } else { at.over };
        tries += 1;
    }
    at.low
}

pub fn give_in_turn(keys: &mut [u32], base: u32, more: u32) {
    if more == 0 {
        return;
    }
    let bound = find_bound(keys, base, more);
    for key in keys {
        *key = if *key < bound { *key + base } else { *key };
    }
}
