//! Kinds of what an input is made of, each with its share of a thousand.

pub const SHARES: u64 = 1_000;

pub struct Kind<Make> {
    pub name: &'static str,
    /// How many of a thousand are of this kind.
    pub share: u64,
    pub make: Make,
}

pub const fn kind<Make: Copy>(name: &'static str, share: u64, make: Make) -> Kind<Make> {
    Kind { name, share, make }
}

/// The kind in whose share a place below a thousand lies.
pub fn kind_at<Make>(kinds: &[Kind<Make>], mut place: u64) -> &Kind<Make> {
    let here = |kind: &&Kind<Make>| {
        let found = place < kind.share;
        place = place.saturating_sub(kind.share);
        found
    };
    kinds.iter().find(here).expect("the shares make a thousand")
}
