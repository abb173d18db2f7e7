// Calls and answers as numbers, as the proved functions have them, and the run of any plain ledger over them.
use crate::kinds::Kind;

pub const ENTER: u32 = 0x10;
pub const WITHDRAW: u32 = 0x11;
pub const STATE: u32 = 0x20;
pub const LATEST: u32 = 0x21;
pub const COUNT: u32 = 0x22;

pub const LAST_BELIEF: u32 = 1023;
pub const LAST_SECOND: u64 = (1 << 40) - 1;

#[repr(C)]
#[derive(Clone, Copy, Debug, Default)]
pub struct CallNumbers {
    pub code: u32,
    pub number: u32,
    pub time: u64,
    pub first: u64,
    pub second: u64,
}

#[repr(C)]
#[derive(Clone, Copy, Debug, Default, PartialEq, Eq)]
pub struct ReplyNumbers {
    pub refusal: u32,
    pub number: u32,
    pub word: u64,
}

#[derive(Clone, Copy)]
pub enum Call<K> {
    Enter { time: u64, effect: K },
    Withdraw { operation: u32 },
    State { belief: u32, time: u64 },
    Latest { belief: u32, time: u64 },
    Count { belief: u32 },
}

pub enum Answer<S> {
    Changed { belief: u32, cells: u32 },
    InState(S),
    Newest(Option<(u32, u64)>),
    Counted(u32),
}

pub enum Refusal {
    Full,
    NoOperation(u32),
    NoBelief(u32),
}

#[derive(Clone, Copy)]
pub struct Operation<K> {
    pub number: u32,
    pub time: u64,
    pub effect: K,
}

impl<K> Operation<K> {
    pub fn before(&self, time: u64, number: u32) -> bool {
        (self.time, self.number) < (time, number)
    }
}

// A ledger on the clock, its calls as any user of it would make them.
pub trait Ledger<K: Kind> {
    fn open(cells: u32) -> Self;

    fn enter(&mut self, time: u64, effect: K) -> Result<(u32, u32), Refusal>;

    fn withdraw(&mut self, operation: u32) -> Result<(u32, u32), Refusal>;

    fn state(&self, belief: u32, time: u64) -> Result<K::State, Refusal>;

    fn latest(&self, belief: u32, time: u64) -> Result<Option<(u32, u64)>, Refusal>;

    fn count(&self, belief: u32) -> Result<u32, Refusal>;
}

fn read<K: Kind>(asked: CallNumbers) -> Option<Call<K>> {
    let CallNumbers {
        code,
        number,
        time,
        first,
        second,
    } = asked;
    let read_time = || (time <= LAST_SECOND).then_some(time);
    match code {
        ENTER => Some(Call::Enter {
            time: read_time()?,
            effect: K::from_words(first, second)?,
        }),
        WITHDRAW => Some(Call::Withdraw { operation: number }),
        STATE => Some(Call::State {
            belief: number,
            time: read_time()?,
        }),
        LATEST => Some(Call::Latest {
            belief: number,
            time: read_time()?,
        }),
        COUNT => Some(Call::Count { belief: number }),
        _ => None,
    }
}

fn carry_out<K: Kind, L: Ledger<K>>(
    ledger: &mut L,
    call: Call<K>,
) -> Result<Answer<K::State>, Refusal> {
    let changed = |(belief, cells)| Answer::Changed { belief, cells };
    match call {
        Call::Enter { time, effect } => ledger.enter(time, effect).map(changed),
        Call::Withdraw { operation } => ledger.withdraw(operation).map(changed),
        Call::State { belief, time } => ledger.state(belief, time).map(Answer::InState),
        Call::Latest { belief, time } => ledger.latest(belief, time).map(Answer::Newest),
        Call::Count { belief } => ledger.count(belief).map(Answer::Counted),
    }
}

fn numbers_of<K: Kind>(reply: Result<Answer<K::State>, Refusal>) -> ReplyNumbers {
    let (refusal, number, word) = match reply {
        Ok(Answer::Changed { belief, cells }) => (0, belief, u64::from(cells)),
        Ok(Answer::InState(state)) => (0, 0, K::state_word(state)),
        Ok(Answer::Newest(Some((operation, time)))) => (0, operation, time),
        Ok(Answer::Newest(None)) => (0, 0, 0),
        Ok(Answer::Counted(count)) => (0, count, 0),
        Err(Refusal::Full) => (0x23, LAST_BELIEF, 0),
        Err(Refusal::NoOperation(operation)) => (0x22, operation, 0),
        Err(Refusal::NoBelief(belief)) => (0x21, belief, 0),
    };
    ReplyNumbers {
        refusal,
        number,
        word,
    }
}

// Reads the calls, carries them out and writes the answers, each whole list in turn, as the proved functions do.
pub fn answer<K: Kind, L: Ledger<K>>(
    cells: u32,
    asked: &[CallNumbers],
    out: &mut [ReplyNumbers],
) -> usize {
    let mut calls = Vec::with_capacity(asked.len());
    calls.extend(asked.iter().map_while(|numbers| read::<K>(*numbers)));
    let mut ledger = L::open(cells);
    let replies: Vec<_> = calls
        .iter()
        .map(|call| carry_out(&mut ledger, *call))
        .collect();
    let places = replies.len().min(out.len());
    for (place, reply) in out.iter_mut().zip(replies) {
        *place = numbers_of::<K>(reply);
    }
    places
}
