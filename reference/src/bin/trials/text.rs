//! The text of a case: bytes that are said and numbers that are fed, and the
//! checksum over both in the order in which they come.

use crate::lent::Held;

const FACTOR: u64 = 16_777_619;
const MODULUS: u64 = 4_294_967_291;

#[derive(Clone, Copy, Debug, Default, PartialEq)]
pub struct Sum(u64);

impl Sum {
    pub fn feed(&mut self, number: u32) {
        self.0 = (self.0 * FACTOR + u64::from(number) + 1) % MODULUS;
    }

    /// Below the modulus, so that it can be fed in turn.
    pub fn value(self) -> u32 {
        self.0 as u32
    }
}

#[derive(Default)]
pub struct Text {
    pub said: Vec<u8>,
    pub sum: Sum,
}

impl Text {
    pub fn say(&mut self, words: &str) {
        for byte in words.bytes() {
            self.say_byte(byte);
        }
    }

    pub fn feed(&mut self, number: u32) {
        self.sum.feed(number);
    }

    /// A byte of an input or a result.
    pub fn say_plainly(&mut self, byte: u8) {
        match byte {
            b'\r' => self.say("\\r"),
            b'\n' => self.say("\\n"),
            0x20..=0x7E => self.say_byte(byte),
            _ => self.say(&format!("\\{byte:02X}")),
        }
    }

    fn say_byte(&mut self, byte: u8) {
        self.said.push(byte);
        self.feed(byte.into());
    }

    /// A label, how many there are, and all of them.
    pub fn row<T: Held>(&mut self, label: &str, all: &[T]) {
        self.say(&format!("{label},{},", all.len()));
        self.say_all(all);
        self.say("\n");
    }

    /// A buffer that was lent to a call, with so many at its front the result.
    pub fn lent<T: Held>(&mut self, label: &str, buffer: &[T], result: usize) {
        self.lent_over(label, buffer, result, T::mark);
    }

    /// Likewise, where it held something else before the call.
    pub fn lent_over<T: Held>(
        &mut self,
        label: &str,
        buffer: &[T],
        result: usize,
        before: impl Fn(usize) -> T,
    ) {
        let rest = &buffer[result..];
        let numbered = (result..).zip(rest);
        let kept = numbered.filter(|(i, held)| **held == before(*i)).count();
        self.say(&format!("{label},{},", buffer.len()));
        self.say_all(&buffer[..result]);
        self.say(&format!(",kept,{kept}\n"));
        for held in rest {
            held.feed(self);
        }
    }

    fn say_all<T: Held>(&mut self, all: &[T]) {
        for (i, held) in all.iter().enumerate() {
            if i > 0 {
                self.say(T::BETWEEN);
            }
            held.say(self);
        }
    }
}
