// A plain ledger: each belief is a sorted vector of its operations, and a state is replayed through them.
use crate::calls::{Ledger, Operation, Refusal, LAST_BELIEF};
use crate::kinds::Kind;

pub struct Replay<K> {
    beliefs: Vec<Vec<Operation<K>>>,
}

impl<K: Kind> Replay<K> {
    fn latest_belief(&self) -> u32 {
        self.beliefs.len() as u32 - 1
    }

    fn next_belief(&self) -> Result<u32, Refusal> {
        let latest = self.latest_belief();
        if latest >= LAST_BELIEF {
            return Err(Refusal::Full);
        }
        Ok(latest + 1)
    }

    fn belief(&self, belief: u32) -> Result<&[Operation<K>], Refusal> {
        self.beliefs
            .get(belief as usize)
            .map(Vec::as_slice)
            .ok_or(Refusal::NoBelief(belief))
    }

    fn until(&self, belief: u32, time: u64) -> Result<&[Operation<K>], Refusal> {
        let operations = self.belief(belief)?;
        let end = operations.partition_point(|operation| operation.time <= time);
        Ok(&operations[..end])
    }
}

impl<K: Kind> Ledger<K> for Replay<K> {
    fn open(_cells: u32) -> Self {
        let mut beliefs = Vec::with_capacity(1024);
        beliefs.push(Vec::new());
        Replay { beliefs }
    }

    fn enter(&mut self, time: u64, effect: K) -> Result<(u32, u32), Refusal> {
        let number = self.next_belief()?;
        let latest = &self.beliefs[number as usize - 1];
        let at = latest.partition_point(|operation| operation.before(time, number));
        let mut next = Vec::with_capacity(latest.len() + 1);
        next.extend_from_slice(&latest[..at]);
        next.push(Operation {
            number,
            time,
            effect,
        });
        next.extend_from_slice(&latest[at..]);
        self.beliefs.push(next);
        Ok((number, 0))
    }

    fn withdraw(&mut self, operation: u32) -> Result<(u32, u32), Refusal> {
        let number = self.next_belief()?;
        let latest = &self.beliefs[number as usize - 1];
        let Some(at) = latest.iter().position(|found| found.number == operation) else {
            return Err(Refusal::NoOperation(operation));
        };
        let mut next = Vec::with_capacity(latest.len() - 1);
        next.extend_from_slice(&latest[..at]);
        next.extend_from_slice(&latest[at + 1..]);
        self.beliefs.push(next);
        Ok((number, 0))
    }

    fn state(&self, belief: u32, time: u64) -> Result<K::State, Refusal> {
        let operations = self.until(belief, time)?;
        Ok(operations
            .iter()
            .fold(K::start(), |state, operation| operation.effect.act(state)))
    }

    fn latest(&self, belief: u32, time: u64) -> Result<Option<(u32, u64)>, Refusal> {
        let operations = self.until(belief, time)?;
        Ok(operations
            .last()
            .map(|operation| (operation.number, operation.time)))
    }

    fn count(&self, belief: u32) -> Result<u32, Refusal> {
        Ok(self.belief(belief)?.len() as u32)
    }
}
