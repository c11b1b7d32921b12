//! What the tests share: sheets, a stream of numbers, and lists between guards.
#![allow(dead_code)]
use qptr::{Refusal, Table};
use std::fmt::Debug;

pub const EXAMPLE: &[u8] = include_bytes!("../../../sheets/example.sheet");
pub const LIGHTS: &[u8] = include_bytes!("../../../sheets/lights.sheet");

macro_rules! answered {
    ($($name:literal),*) => {
        [$((include_bytes!(concat!("../../../sheets/", $name, ".sheet")), include_bytes!(concat!("../../../sheets/", $name, ".answers")))),*]
    };
}

/// The sheets for people, with their answers.
pub const SHEETS: [(&[u8], &[u8]); 6] = answered!("example", "lights", "frame", "bodies", "materials", "palette");

/// The table of types under the scalar setting.
pub fn types(lines: &str) -> Table {
    Table::read(format!("G,1,1,1,1,1,1\n{lines}").as_bytes()).expect("a good sheet")
}

/// The number of a refusal.
pub fn number<T: Debug>(result: Result<T, Refusal>) -> u32 {
    result.expect_err("a refusal").number()
}

/// A stream of numbers, the same in each run (xorshift).
pub struct Numbers(u64);

impl Numbers {
    pub fn from(seed: u64) -> Numbers {
        Numbers(seed | 1 << 40)
    }

    pub fn next(&mut self) -> u64 {
        self.0 ^= self.0 << 13;
        self.0 ^= self.0 >> 7;
        self.0 ^= self.0 << 17;
        self.0
    }

    pub fn below(&mut self, n: usize) -> usize {
        (self.next() % n as u64) as usize
    }

    pub fn one_in(&mut self, n: usize) -> bool {
        self.below(n) == 0
    }

    /// A word of one of several sizes.
    pub fn word(&mut self) -> u32 {
        (self.next() >> 32) as u32 >> [0, 8, 16, 24, 28, 30][self.below(6)]
    }
}

const GUARD: usize = 16;

/// A list that stands between guards.
pub struct Guarded<T> {
    all: Vec<T>,
    was: Vec<T>,
}

impl<T: Copy + PartialEq + Debug> Guarded<T> {
    pub fn of(list: &[T], guard: T) -> Guarded<T> {
        let all = [&[guard; GUARD], list, &[guard; GUARD]].concat();
        Guarded { was: all.clone(), all }
    }

    pub fn list(&self) -> &[T] {
        &self.all[GUARD..self.all.len() - GUARD]
    }

    pub fn lend(&mut self) -> &mut [T] {
        let end = self.all.len() - GUARD;
        &mut self.all[GUARD..end]
    }

    /// The guards are as they were, and so is the list from `from` on.
    pub fn kept(&self, from: usize) {
        assert!(GUARD + from + GUARD <= self.all.len(), "more is counted than the list has places");
        assert!(self.all[..GUARD] == self.was[..GUARD], "what lies before a list is written");
        assert!(self.all[GUARD + from..] == self.was[GUARD + from..], "what lies behind the answer is written");
    }
}

/// A call on a list of so many places that hold `fill`: what it wrote, or its refusal's number and the list as it was.
/// `call` says how many places it wrote.
pub fn called<T: Copy + PartialEq + Debug>(room: usize, fill: T, call: &dyn Fn(&mut [T]) -> Result<usize, Refusal>) -> Result<Vec<T>, u32> {
    let mut lent = Guarded::of(&vec![fill; room], fill);
    match call(lent.lend()) {
        Ok(places) => {
            lent.kept(places);
            Ok(lent.list()[..places].to_vec())
        }
        Err(refusal) => {
            lent.kept(0);
            Err(refusal.number())
        }
    }
}

/// The same, and that an answer is full: each of its places is written, it fits exactly, and one place less is a short list.
pub fn full<T: Copy + PartialEq + Debug>(room: usize, fills: [T; 2], call: &dyn Fn(&mut [T]) -> Result<usize, Refusal>) -> Result<Vec<T>, u32> {
    let answer = called(room, fills[0], call);
    if let Ok(list) = &answer {
        assert_eq!(called(list.len(), fills[1], call).as_ref(), Ok(list));
        if let Some(short) = list.len().checked_sub(1) {
            assert_eq!(called(short, fills[1], call), Err(Refusal::SHORT_LIST.number()));
        }
    }
    answer
}

pub const BYTES: [u8; 2] = [0xa5, 0x3c];
pub const WORDS: [u32; 2] = [0xa5a5_a5a5, 0x3c3c_3c3c];
