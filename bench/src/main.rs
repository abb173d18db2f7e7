// The proved ledger beside two plain ones: whether all three answer the same on random runs, and how long each takes.
mod calls;
mod kinds;
mod measure;
mod proved;
mod random;
mod replay;
mod tree;

use calls::{answer, CallNumbers, ReplyNumbers, COUNT, ENTER, LATEST, STATE, WITHDRAW};
use kinds::{Counter, Settings, Transitions};
use random::{Random, Words};
use replay::Replay;
use tree::Tree;

// Room for the claims of 1,023 changes, so that no change is refused for want of it.
pub const CELLS: u32 = 42 * 1023;

// Answers calls over so many cells, and says how many it answered.
pub type Answering = fn(u32, &[CallNumbers], &mut [ReplyNumbers]) -> usize;

// One kind of effect in the three implementations.
pub struct Subject {
    pub name: &'static str,
    pub words: Words,
    pub proved: Answering,
    pub tree: Answering,
    pub replay: Answering,
}

const SUBJECTS: [Subject; 3] = [
    Subject {
        name: "counter",
        words: random::counter_words,
        proved: proved::counter,
        tree: answer::<Counter, Tree<Counter>>,
        replay: answer::<Counter, Replay<Counter>>,
    },
    Subject {
        name: "settings",
        words: random::settings_words,
        proved: proved::settings,
        tree: answer::<Settings, Tree<Settings>>,
        replay: answer::<Settings, Replay<Settings>>,
    },
    Subject {
        name: "status",
        words: random::status_words,
        proved: proved::status,
        tree: answer::<Transitions, Tree<Transitions>>,
        replay: answer::<Transitions, Replay<Transitions>>,
    },
];

// The answers, where those to accepted changes do not tell their cells, and how many there are.
fn answers(
    answering: Answering,
    asked: &[CallNumbers],
    places: usize,
) -> (usize, Vec<ReplyNumbers>) {
    let untouched = ReplyNumbers {
        refusal: 0xdead,
        number: 0xdead,
        word: 0xdead,
    };
    let mut out = vec![untouched; places];
    let answered = answering(CELLS, asked, &mut out);
    for (call, reply) in asked.iter().zip(out[..answered].iter_mut()) {
        if reply.refusal == 0 && (call.code == ENTER || call.code == WITHDRAW) {
            reply.word = 0;
        }
    }
    (answered, out)
}

// How many answers of each sort were compared.
#[derive(Default)]
struct Compared {
    changes: usize,
    questions: usize,
    refusals: usize,
    stopped: usize,
}

impl Compared {
    fn note(&mut self, asked: &[CallNumbers], answered: usize, out: &[ReplyNumbers]) {
        for (call, reply) in asked.iter().zip(&out[..answered]) {
            match (reply.refusal, call.code) {
                (0, ENTER | WITHDRAW) => self.changes += 1,
                (0, STATE | LATEST | COUNT) => self.questions += 1,
                _ => self.refusals += 1,
            }
        }
        self.stopped += usize::from(answered < asked.len());
    }
}

// Compares all answers of the three on random runs; ends the program at the first difference.
fn compare(subject: &Subject, runs: u64) -> Compared {
    let mut compared = Compared::default();
    for seed in 0..runs {
        let mut random = Random::new(seed);
        let length = 1 + random.below(4_000) as usize;
        let damage = if seed % 4 == 3 { 1 + random.below(2_000) } else { 0 };
        let asked = random::run(&mut random, subject.words, length, damage);
        let places = if seed % 8 == 5 { length / 2 } else { length + 3 };
        let by_proof = answers(subject.proved, &asked, places);
        for (name, plain) in [("tree", subject.tree), ("replay", subject.replay)] {
            let by_plain = answers(plain, &asked, places);
            if by_proof != by_plain {
                let at = by_proof.1.iter().zip(&by_plain.1).position(|(a, b)| a != b);
                eprintln!("{}, run {seed}: the {name} differs at call {at:?}", subject.name);
                if let Some(at) = at {
                    let (proved, plain) = (by_proof.1[at], by_plain.1[at]);
                    eprintln!("{:?}\nproved {proved:?}\n{name} {plain:?}", asked.get(at));
                }
                std::process::exit(1);
            }
        }
        compared.note(&asked, by_proof.0, &by_proof.1);
    }
    compared
}

fn main() {
    for subject in &SUBJECTS {
        let compared = compare(subject, 400);
        println!(
            "{}: all three agree on 400 random runs: {} changes, {} questions, {} refusals; {} runs were not answered to the end",
            subject.name, compared.changes, compared.questions, compared.refusals, compared.stopped
        );
    }
    if std::env::args().nth(1).as_deref() != Some("check") {
        measure::all(&SUBJECTS);
    }
}
