//! A text that is put together piece by piece, with one look at the end at whether memory was
//! there.
use faults::Fault;
use std::alloc::Global;
use std::io::Write;

/// What is put goes behind what is there. Where memory is refused once, the whole text is lost.
#[derive(Drop)]
pub struct Text {
    bytes: Vec<u8>,
    is_lost: bool,
    /// How often something was asked again because memory had run out in it.
    again: u32,
}

impl Text {
    pub fn new(alloc: Global) -> Text {
        Text {
            bytes: Vec::new(alloc),
            is_lost: false,
            again: 0,
        }
    }

    pub fn alloc(&self) -> Global {
        *self.bytes.allocator()
    }

    pub fn put_bytes(&mut self, bytes: &[u8]) {
        if self.bytes.extend_from_slice(bytes).is_err() {
            self.is_lost = true;
        }
    }

    pub fn put(&mut self, words: &str) {
        self.put_bytes(words.as_bytes());
    }

    /// The words, and the number behind them.
    pub fn put_number(&mut self, words: &str, number: u64) {
        if write!(self.bytes, "{words}{number}").is_err() {
            self.is_lost = true;
        }
    }

    /// The bytes in hexadecimal.
    pub fn put_digits(&mut self, bytes: &[u8]) {
        match hex::encode(self.alloc(), bytes) {
            Ok(digits) => self.put(digits.as_str()),
            Err(_) => self.is_lost = true,
        }
    }

    /// The number of a refusal, and what is told behind it, if something is.
    pub fn put_refusal(&mut self, number: u32, behind: Option<u64>) {
        self.put_number("", u64::from(number));
        if let Some(behind) = behind {
            self.put_number(" ", behind);
        }
    }

    /// The number of the fault, and its place, if it has one.
    pub fn put_fault(&mut self, fault: &impl Fault) {
        self.put_refusal(fault.number(), fault.place());
    }

    /// Memory was refused for a part of it.
    pub fn lose(&mut self) {
        self.is_lost = true;
    }

    /// Something is asked again, since memory had run out in it.
    pub fn count_again(&mut self) {
        self.again = self.again.saturating_add(1);
    }

    pub fn is_lost(&self) -> bool {
        self.is_lost
    }

    pub fn as_bytes(&self) -> &[u8] {
        self.bytes.as_slice()
    }

    /// What was put, or a beginning of it.
    pub fn into_bytes(self) -> Vec<u8> {
        let Text { bytes, .. } = self;
        bytes
    }

    /// How often something was asked again.
    pub fn again(&self) -> u32 {
        self.again
    }
}
