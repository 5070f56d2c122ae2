//! What lent buffers are made of, and what they hold before a call.

use crate::fields::{MOST_BYTES, MOST_NUMBERS};
use crate::text::Text;
use reference::{Place, Way};

pub trait Held: Copy + PartialEq {
    /// The longest buffer that is lent.
    const MOST: usize;
    /// What stands between two that are said.
    const BETWEEN: &'static str;

    /// What a buffer holds at a place before a call.
    fn mark(place: usize) -> Self;
    fn say(self, text: &mut Text);
    fn feed(self, text: &mut Text);
}

impl Held for u8 {
    const MOST: usize = MOST_BYTES;
    const BETWEEN: &'static str = "";

    fn mark(place: usize) -> u8 {
        b'a' + (place % 26) as u8
    }

    fn say(self, text: &mut Text) {
        text.say_plainly(self);
    }

    fn feed(self, text: &mut Text) {
        text.feed(self.into());
    }
}

impl Held for u16 {
    const MOST: usize = MOST_NUMBERS;
    const BETWEEN: &'static str = " ";

    fn mark(place: usize) -> u16 {
        1_000 + place as u16
    }

    fn say(self, text: &mut Text) {
        text.say(&self.to_string());
    }

    fn feed(self, text: &mut Text) {
        text.feed(self.into());
    }
}

impl Held for Place {
    const MOST: usize = 130;
    const BETWEEN: &'static str = ";";

    fn mark(place: usize) -> Place {
        let place = place as u32;
        let way = match place % 3 {
            0 => Way::Given(2_000 + place),
            1 => Way::Turned(2_000 + place),
            _ => Way::Either(2_000 + place),
        };
        Place {
            code: 1_000 + place,
            way,
        }
    }

    fn say(self, text: &mut Text) {
        let (word, start) = (self.way.word(), self.way.start());
        text.say(&format!("{} {word} {start}", self.code));
    }

    fn feed(self, text: &mut Text) {
        let way = match self.way {
            Way::Given(_) => 0,
            Way::Turned(_) => 1,
            Way::Either(_) => 2,
        };
        for number in [self.code, way, self.way.start()] {
            text.feed(number);
        }
    }
}

/// A buffer to lend, of this room or the longest there is.
pub fn lent<T: Held>(room: usize) -> Vec<T> {
    (0..room.min(T::MOST)).map(T::mark).collect()
}
