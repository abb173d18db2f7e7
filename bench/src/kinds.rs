// The three kinds of effect, as plain Rust.

pub trait Kind: Copy {
    type State: Copy;

    fn start() -> Self::State;

    fn act(self, state: Self::State) -> Self::State;

    fn compose(self, second: Self) -> Self;

    fn from_words(first: u64, second: u64) -> Option<Self>;

    fn state_word(state: Self::State) -> u64;
}

#[derive(Clone, Copy)]
pub struct Counter {
    amount: i32,
    floor: i32,
    ceiling: i32,
}

const MOST: i32 = 1_000_000;

impl Kind for Counter {
    type State = i32;

    fn start() -> i32 {
        0
    }

    fn act(self, level: i32) -> i32 {
        (level + self.amount).max(self.floor).min(self.ceiling)
    }

    fn compose(self, second: Counter) -> Counter {
        Counter {
            amount: (self.amount + second.amount).clamp(-MOST, MOST),
            floor: second.act(self.floor),
            ceiling: second.act(self.ceiling),
        }
    }

    fn from_words(first: u64, second: u64) -> Option<Counter> {
        let amount = (first >> 42) as i32 - MOST;
        let floor = (first >> 21) as i32 & 0x1f_ffff;
        let ceiling = first as i32 & 0x1f_ffff;
        let fits = second == 0 && amount <= MOST && floor <= ceiling && ceiling <= MOST;
        fits.then_some(Counter {
            amount,
            floor,
            ceiling,
        })
    }

    fn state_word(level: i32) -> u64 {
        level as u64
    }
}

#[derive(Clone, Copy)]
pub struct Settings {
    mask: u8,
    values: [u16; 4],
}

fn fields(word: u64) -> [u16; 4] {
    [
        (word >> 48) as u16,
        (word >> 32) as u16,
        (word >> 16) as u16,
        word as u16,
    ]
}

impl Kind for Settings {
    type State = [u16; 4];

    fn start() -> [u16; 4] {
        [0; 4]
    }

    fn act(self, setup: [u16; 4]) -> [u16; 4] {
        let mut after = setup;
        for (i, field) in after.iter_mut().enumerate() {
            if self.mask >> i & 1 == 1 {
                *field = self.values[i];
            }
        }
        after
    }

    fn compose(self, second: Settings) -> Settings {
        Settings {
            mask: self.mask | second.mask,
            values: second.act(self.values),
        }
    }

    fn from_words(first: u64, second: u64) -> Option<Settings> {
        let values = fields(second);
        let fits = first <= 0x0f && (0..4).all(|i| first >> i & 1 == 1 || values[i] == 0);
        fits.then_some(Settings {
            mask: first as u8,
            values,
        })
    }

    fn state_word(setup: [u16; 4]) -> u64 {
        setup.iter().fold(0, |word, field| word << 16 | u64::from(*field))
    }
}

#[derive(Clone, Copy)]
pub struct Transitions {
    entries: [u8; 8],
}

impl Kind for Transitions {
    type State = u8;

    fn start() -> u8 {
        0
    }

    fn act(self, status: u8) -> u8 {
        self.entries[status as usize]
    }

    fn compose(self, second: Transitions) -> Transitions {
        Transitions {
            entries: self.entries.map(|entry| second.act(entry)),
        }
    }

    fn from_words(first: u64, second: u64) -> Option<Transitions> {
        let mut entries = [0; 8];
        for (i, entry) in entries.iter_mut().enumerate() {
            *entry = (first >> (3 * i)) as u8 & 7;
        }
        (first < 1 << 24 && second == 0).then_some(Transitions { entries })
    }

    fn state_word(status: u8) -> u64 {
        u64::from(status)
    }
}
