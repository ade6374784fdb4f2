//! Input and output in blocks.

use std::fs::File;
use std::io::{ErrorKind, Read, Write};

use crate::bus::{Bus, DELIVERED, VERDICTS};
use crate::line::SLACK;

const BLOCK: usize = 1 << 16;

/// What ends a command: one line on standard error, and status 1.
pub struct Fault(pub String);

pub fn fault<T>(text: &str) -> Result<T, Fault> {
    Err(Fault(text.to_string()))
}

/// Reads what is there, once.
pub fn read_some(file: &mut File, to: &mut [u8]) -> std::io::Result<usize> {
    loop {
        match file.read(to) {
            Err(it) if it.kind() == ErrorKind::Interrupted => {}
            it => return it,
        }
    }
}

/// A trace, of which a block is here.
pub struct Input {
    file: File,
    block: Vec<u8>,
    at: usize,
    end: usize,
    /// Whether the last read gave less than was asked for, and the next one may have to wait.
    pub is_short: bool,
}

impl Input {
    /// A trace of which the first bytes were read, at most a block.
    pub fn new(file: File, begun: &[u8]) -> Self {
        let mut block = vec![0; 2 * BLOCK + SLACK];
        block[..begun.len()].copy_from_slice(begun);
        Input { file, block, at: 0, end: begun.len(), is_short: true }
    }

    pub fn lines(&self) -> std::ops::Range<*const u8> {
        self.rest().as_ptr_range()
    }

    /// Notes that all before this was read.
    pub fn read_to(&mut self, line: *const u8) {
        self.at = line as usize - self.block.as_ptr() as usize;
    }

    /// The bytes that were read and not taken.
    pub fn rest(&self) -> &[u8] {
        &self.block[self.at..self.end]
    }

    /// Reads on behind them, and says whether there was more.
    pub fn read_on(&mut self) -> Result<bool, Fault> {
        self.block.copy_within(self.at..self.end, 0);
        (self.at, self.end) = (0, self.end - self.at);
        let Ok(count) = read_some(&mut self.file, &mut self.block[self.end..self.end + BLOCK]) else {
            return fault("X5 the trace cannot be read");
        };
        self.is_short = count < BLOCK;
        self.end += count;
        Ok(count > 0)
    }
}

/// Standard output.
pub struct Output {
    file: File,
    block: Vec<u8>,
    at: usize,
}

/// So many bytes can be written where `next` and `make_room` lead to.
pub const ROOM: usize = 128;

impl Output {
    pub fn new(file: File) -> Self {
        Output { file, block: vec![0; BLOCK + ROOM], at: 0 }
    }

    /// Where the next bytes go, and where a block ends.
    pub fn next(&mut self) -> (*mut u8, *mut u8) {
        let block = self.block.as_mut_ptr();
        unsafe { (block.add(self.at), block.add(BLOCK)) }
    }

    /// Notes that bytes were written up to there.
    pub fn wrote_to(&mut self, end: *mut u8) {
        self.at = end as usize - self.block.as_ptr() as usize;
    }

    /// Hands on a block that is full, and gives where the next bytes go.
    #[cold]
    #[inline(never)]
    pub fn make_room(&mut self, end: *mut u8) -> Result<*mut u8, Fault> {
        self.wrote_to(end);
        self.hand_on()?;
        Ok(self.block.as_mut_ptr())
    }

    pub fn write(&mut self, text: &str) {
        self.block[self.at..self.at + text.len()].copy_from_slice(text.as_bytes());
        self.at += text.len();
    }

    #[cold]
    #[inline(never)]
    pub fn hand_on(&mut self) -> Result<(), Fault> {
        let written = self.file.write_all(&self.block[..self.at]);
        self.at = 0;
        if written.is_err() {
            fault("X8 the output cannot be written")
        } else {
            Ok(())
        }
    }
}

/// A number as it is written, to which one can be added.
#[derive(Clone, Copy)]
pub struct Counter {
    /// The last eight digits, or fewer where there are no more, the first in the lowest byte.
    digits: u64,
    /// One of the last digit, and how many digits there are.
    one: u64,
    length: usize,
    /// What all digits before them are.
    before: u64,
}

impl Counter {
    pub fn new() -> Self {
        Counter { digits: b'0' as u64, one: 1, length: 1, before: 0 }
    }

    #[inline(always)]
    pub fn next(mut self) -> Self {
        if self.digits >= self.one * b'9' as u64 {
            return self.carry();
        }
        self.digits += self.one;
        self
    }

    #[inline(always)]
    fn carry(mut self) -> Self {
        let mut one = self.one;
        while one > 0 {
            if self.digits >> one.trailing_zeros() & 255 != b'9' as u64 {
                self.digits += one;
                return self;
            }
            self.digits -= 9 * one;
            one >>= 8;
        }
        if self.length < 8 {
            self.digits = self.digits << 8 | b'1' as u64;
            self.one <<= 8;
            self.length += 1;
        } else {
            self.before += 1;
        }
        self
    }
}

/// The lines of verdicts.
pub struct Verdicts {
    texts: [[u8; 8]; 64],
    lengths: [u8; 64],
    /// What a delivery adds, by level and handler, and by the board that answers.
    heads: Vec<Vec<String>>,
    tails: Vec<String>,
}

impl Verdicts {
    pub fn new(bus: &Bus) -> Self {
        let head = |level| (0..32).map(|handler| format!(" irq {level} to {handler}")).collect();
        let tail = |(slot, status)| format!(" from {slot} status {status}\n");
        let mut all = Verdicts {
            texts: [[0; 8]; 64],
            lengths: [0; 64],
            heads: (0..8).map(head).collect(),
            tails: bus.plan.status.iter().enumerate().map(tail).collect(),
        };
        for (place, length) in all.lengths.iter_mut().enumerate().take(VERDICTS) {
            let text = format!(" {}\n", text_of(place as u8));
            *length = text.len() as u8;
            all.texts[place][..text.len()].copy_from_slice(text.as_bytes());
        }
        all
    }

    /// Writes the line of one edge, and gives where it ends.
    ///
    /// # Safety
    /// `ROOM` bytes can be written.
    #[inline(always)]
    pub unsafe fn write(&self, counter: Counter, verdict: u8, mut to: *mut u8) -> *mut u8 {
        if counter.before > 0 {
            to = write_number(counter.before, to);
        }
        debug_assert!((verdict as usize) < VERDICTS);
        let place = verdict as usize & 63;
        (to as *mut u64).write_unaligned(counter.digits);
        to = to.add(counter.length);
        (to as *mut [u8; 8]).write_unaligned(self.texts[place]);
        to.add(self.lengths[place] as usize)
    }

    /// Writes behind the line of an answer what it delivers.
    ///
    /// # Safety
    /// `ROOM` bytes can be written.
    #[cold]
    #[inline(never)]
    pub unsafe fn write_delivery(&self, bus: &Bus, slot: usize, to: *mut u8) -> *mut u8 {
        let to = write_text(&self.heads[bus.state.level as usize & 7][bus.handler()], to.sub(1));
        write_text(&self.tails[slot & 31], to)
    }
}

#[cold]
#[inline(never)]
unsafe fn write_number(number: u64, to: *mut u8) -> *mut u8 {
    write_text(&number.to_string(), to)
}

unsafe fn write_text(text: &str, to: *mut u8) -> *mut u8 {
    to.copy_from_nonoverlapping(text.as_ptr(), text.len());
    to.add(text.len())
}

/// A verdict as it stands behind a number, without what it delivers.
pub fn text_of(verdict: u8) -> String {
    match verdict {
        0 | DELIVERED => "ok".to_string(),
        2 => "E1".to_string(),
        3 => "E2".to_string(),
        34 => "E5".to_string(),
        4..=29 => format!("E3 G{}", verdict - 3),
        _ => format!("E4 S{}", verdict - 29),
    }
}
