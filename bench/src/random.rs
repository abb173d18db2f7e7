// Random calls, always the same for a seed.
use crate::calls::{CallNumbers, COUNT, ENTER, LAST_SECOND, LATEST, STATE, WITHDRAW};

pub struct Random(u64);

impl Random {
    pub fn new(seed: u64) -> Random {
        Random(seed.wrapping_mul(0x9e37_79b9_7f4a_7c15) | 1)
    }

    fn next(&mut self) -> u64 {
        self.0 ^= self.0 << 13;
        self.0 ^= self.0 >> 7;
        self.0 ^= self.0 << 17;
        self.0.wrapping_mul(0x2545_f491_4f6c_dd1d)
    }

    pub fn below(&mut self, n: u64) -> u64 {
        (self.next() >> 16) % n
    }
}

// The words of a random effect.
pub type Words = fn(&mut Random) -> (u64, u64);

// Any amount and limits, or a level that is set, or an amount that is taken.
pub fn counter_words(random: &mut Random) -> (u64, u64) {
    let (amount, floor, ceiling) = match random.below(3) {
        0 => {
            let floor = random.below(1_000_001);
            let ceiling = floor + random.below(1_000_001 - floor);
            (random.below(2_000_001), floor, ceiling)
        }
        1 => {
            let level = random.below(1_000_001);
            (1_000_000, level, level)
        }
        _ => (1_000_000 - random.below(50_000), 0, 1_000_000),
    };
    (amount << 42 | floor << 21 | ceiling, 0)
}

pub fn settings_words(random: &mut Random) -> (u64, u64) {
    let mask = random.below(16);
    let mut values = 0;
    for i in 0..4 {
        let value = if mask >> i & 1 == 1 {
            random.below(65_536)
        } else {
            0
        };
        values = values << 16 | value;
    }
    (mask, values)
}

pub fn status_words(random: &mut Random) -> (u64, u64) {
    (random.below(1 << 24), 0)
}

pub fn enter(random: &mut Random, words: Words, times: u64) -> CallNumbers {
    let (first, second) = words(random);
    CallNumbers {
        code: ENTER,
        number: 0,
        time: random.below(times),
        first,
        second,
    }
}

pub fn about(code: u32, number: u64, time: u64) -> CallNumbers {
    CallNumbers {
        code,
        number: number as u32,
        time,
        ..CallNumbers::default()
    }
}

// Numbers that are no call's.
fn no_call(random: &mut Random) -> CallNumbers {
    match random.below(4) {
        0 => about(0x12, 0, 0),
        1 => about(STATE, 0, LAST_SECOND + 1),
        2 => CallNumbers {
            second: 1 << 63,
            ..about(ENTER, 0, 0)
        },
        _ => CallNumbers {
            first: u64::MAX,
            ..about(ENTER, 0, 0)
        },
    }
}

// A run of all five calls, accepted and refused; `changes` of 100 are changes. One call in `damage` is none.
pub fn run(random: &mut Random, words: Words, length: usize, damage: u64) -> Vec<CallNumbers> {
    let changes = 5 + random.below(90);
    let entries = 40 + random.below(60);
    let times = [4, 300, 1 << 40][random.below(3) as usize];
    let mut accepted = 0;
    let mut calls = Vec::with_capacity(length);
    for _ in 0..length {
        let number = random.below(accepted + 3);
        let time = random.below(times);
        calls.push(if damage > 0 && random.below(damage) == 0 {
            no_call(random)
        } else if random.below(100) < changes {
            accepted += 1;
            if random.below(100) < entries {
                enter(random, words, times)
            } else {
                about(WITHDRAW, number, 0)
            }
        } else {
            about([STATE, LATEST, COUNT][random.below(3) as usize], number, time)
        });
    }
    calls
}
