// How long calls take. A time is that of a whole run less that of the same run without the calls in question, divided by
// their number: what both runs do, opening the ledger and its table among it, cancels out. Each pair is run again and
// again, the three implementations in turn, on the same input, and the median counts. Each of the two runs follows a run
// of the same implementation, and either is the first by turns: so neither alone finds the caches cold.
use crate::calls::{CallNumbers, ReplyNumbers, STATE, WITHDRAW};
use crate::random::{about, enter, Random};
use crate::{Answering, Subject, CELLS};
use std::hint::black_box;
use std::time::Instant;

const SIZES: [usize; 3] = [10, 100, 1_000];
const QUESTIONS: usize = 4_000;
const TIMES: u64 = 1 << 40;

// The two runs of a measurement, the shorter the front of the longer, and how often they are run.
struct Pair {
    asked: Vec<CallNumbers>,
    shorter: usize,
    rounds: usize,
}

fn entries(random: &mut Random, subject: &Subject, n: usize) -> Vec<CallNumbers> {
    (0..n).map(|_| enter(random, subject.words, TIMES)).collect()
}

// n operations entered at random times into an empty ledger.
fn entering(subject: &Subject, n: usize) -> Pair {
    let asked = entries(&mut Random::new(1), subject, n);
    Pair {
        asked,
        shorter: 0,
        rounds: 400_000 / (n + 200),
    }
}

// Operations withdrawn in random order from n: half of them, or as many as beliefs are left.
fn withdrawing(subject: &Subject, n: usize) -> Pair {
    let mut random = Random::new(2);
    let mut asked = entries(&mut random, subject, n);
    let mut left: Vec<u64> = (1..=n as u64).collect();
    for _ in 0..(n / 2).min(1_023 - n) {
        let operation = left.swap_remove(random.below(left.len() as u64) as usize);
        asked.push(about(WITHDRAW, operation, 0));
    }
    Pair {
        asked,
        shorter: n,
        rounds: 400_000 / (n + 200),
    }
}

// The state asked at random times of the belief with n operations.
fn asking(subject: &Subject, n: usize) -> Pair {
    let mut random = Random::new(3);
    let mut asked = entries(&mut random, subject, n);
    for _ in 0..QUESTIONS {
        asked.push(about(STATE, n as u64, random.below(TIMES)));
    }
    Pair {
        asked,
        shorter: n,
        rounds: 60,
    }
}

fn nanoseconds(answering: Answering, asked: &[CallNumbers], out: &mut [ReplyNumbers]) -> f64 {
    let start = Instant::now();
    let answered = answering(CELLS, black_box(asked), out);
    let time = start.elapsed().as_nanos() as f64;
    assert_eq!(answered, asked.len());
    black_box(out);
    time
}

fn median(times: &mut [f64]) -> f64 {
    times.sort_by(f64::total_cmp);
    times[times.len() / 2]
}

// By how much the longer run of a pair takes longer, on warm caches.
fn difference(
    answering: Answering,
    pair: &Pair,
    longer_first: bool,
    out: &mut [ReplyNumbers],
) -> f64 {
    let mut time = |asked| nanoseconds(answering, asked, out);
    let (longer, shorter) = (pair.asked.as_slice(), &pair.asked[..pair.shorter]);
    time(longer);
    if longer_first {
        time(longer) - time(shorter)
    } else {
        let before = time(shorter);
        time(longer) - before
    }
}

// Nanoseconds a call, of each implementation.
fn measure(pair: &Pair, implementations: [Answering; 3]) -> [f64; 3] {
    let mut out = vec![ReplyNumbers::default(); pair.asked.len()];
    let calls = (pair.asked.len() - pair.shorter) as f64;
    let mut times: [Vec<f64>; 3] = Default::default();
    for round in 0..pair.rounds + 5 {
        for turn in 0..3 {
            let which = (round + turn) % 3;
            let longer_first = round % 2 == 0;
            let time = difference(implementations[which], pair, longer_first, &mut out) / calls;
            if round >= 5 {
                times[which].push(time);
            }
        }
    }
    times.map(|mut times| median(&mut times))
}

pub fn all(subjects: &[Subject]) {
    println!("\nNanoseconds a call, medians; operations in the belief; the proved ledger against each plain one:\n");
    println!("| kind | call | operations | proved | plain tree | replay | proved / tree | replay / proved |");
    println!("|---|---|---|---|---|---|---|---|");
    for subject in subjects {
        let calls: [(&str, fn(&Subject, usize) -> Pair); 3] =
            [("enter", entering), ("withdraw", withdrawing), ("state", asking)];
        for (call, pair) in calls {
            for n in SIZES {
                let pair = pair(subject, n);
                let [proved, tree, replay] =
                    measure(&pair, [subject.proved, subject.tree, subject.replay]);
                println!(
                    "| {} | {call} | {n} | {proved:.0} | {tree:.0} | {replay:.0} | {:.2} | {:.2} |",
                    subject.name,
                    proved / tree,
                    replay / proved
                );
            }
        }
    }
}
