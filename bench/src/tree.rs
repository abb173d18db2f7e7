// A plain ledger: each belief is the root of an AVL tree with composed totals, of which a change copies one path. It keeps
// effects as they are, not as words, and checks nothing that it reads.
use crate::calls::{Ledger, Operation, Refusal, LAST_BELIEF};
use crate::kinds::Kind;

#[derive(Clone, Copy)]
struct Node<K> {
    operation: Operation<K>,
    left: u32,
    right: u32,
    height: u32,
    total: K,
}

struct Row {
    root: u32,
    entered: Option<u64>,
    count: u32,
}

// Node k stands at k - 1, and 0 is no tree.
pub struct Tree<K> {
    nodes: Vec<Node<K>>,
    rows: Vec<Row>,
}

impl<K: Kind> Tree<K> {
    fn node(&self, k: u32) -> &Node<K> {
        &self.nodes[k as usize - 1]
    }

    fn height(&self, k: u32) -> u32 {
        if k == 0 {
            0
        } else {
            self.node(k).height
        }
    }

    fn join(&mut self, left: u32, operation: Operation<K>, right: u32) -> u32 {
        let mut height = 0;
        let mut total = operation.effect;
        if left != 0 {
            let side = self.node(left);
            height = side.height;
            total = side.total.compose(total);
        }
        if right != 0 {
            let side = self.node(right);
            height = height.max(side.height);
            total = total.compose(side.total);
        }
        self.nodes.push(Node {
            operation,
            left,
            right,
            height: height + 1,
            total,
        });
        self.nodes.len() as u32
    }

    fn balanced(&mut self, left: u32, operation: Operation<K>, right: u32) -> u32 {
        let (left_height, right_height) = (self.height(left), self.height(right));
        if left_height > right_height + 1 {
            let high = *self.node(left);
            if self.height(high.left) < self.height(high.right) {
                let middle = *self.node(high.right);
                let low = self.join(high.left, high.operation, middle.left);
                let top = self.join(middle.right, operation, right);
                self.join(low, middle.operation, top)
            } else {
                let low = self.join(high.right, operation, right);
                self.join(high.left, high.operation, low)
            }
        } else if right_height > left_height + 1 {
            let high = *self.node(right);
            if self.height(high.right) < self.height(high.left) {
                let middle = *self.node(high.left);
                let low = self.join(left, operation, middle.left);
                let top = self.join(middle.right, high.operation, high.right);
                self.join(low, middle.operation, top)
            } else {
                let low = self.join(left, operation, high.left);
                self.join(low, high.operation, high.right)
            }
        } else {
            self.join(left, operation, right)
        }
    }

    fn insert(&mut self, k: u32, operation: Operation<K>) -> u32 {
        if k == 0 {
            return self.join(0, operation, 0);
        }
        let node = *self.node(k);
        if node.operation.before(operation.time, operation.number) {
            let right = self.insert(node.right, operation);
            self.balanced(node.left, node.operation, right)
        } else {
            let left = self.insert(node.left, operation);
            self.balanced(left, node.operation, node.right)
        }
    }

    fn take_first(&mut self, k: u32) -> (Operation<K>, u32) {
        let node = *self.node(k);
        if node.left == 0 {
            return (node.operation, node.right);
        }
        let (first, left) = self.take_first(node.left);
        (first, self.balanced(left, node.operation, node.right))
    }

    // The tree without the operation of a number and a time, which is in it.
    fn remove(&mut self, k: u32, time: u64, number: u32) -> u32 {
        let node = *self.node(k);
        if node.operation.number == number {
            if node.right == 0 {
                return node.left;
            }
            let (first, right) = self.take_first(node.right);
            self.balanced(node.left, first, right)
        } else if node.operation.before(time, number) {
            let right = self.remove(node.right, time, number);
            self.balanced(node.left, node.operation, right)
        } else {
            let left = self.remove(node.left, time, number);
            self.balanced(left, node.operation, node.right)
        }
    }

    fn has(&self, root: u32, time: u64, number: u32) -> bool {
        let mut k = root;
        while k != 0 {
            let node = self.node(k);
            if node.operation.number == number {
                return true;
            }
            k = if node.operation.before(time, number) {
                node.right
            } else {
                node.left
            };
        }
        false
    }

    fn row(&self, belief: u32) -> Result<&Row, Refusal> {
        self.rows
            .get(belief as usize)
            .ok_or(Refusal::NoBelief(belief))
    }

    // The number of the next belief, and the root and the count of the latest.
    fn latest_row(&self) -> Result<(u32, u32, u32), Refusal> {
        let latest = self.rows.len() as u32 - 1;
        if latest >= LAST_BELIEF {
            return Err(Refusal::Full);
        }
        let row = &self.rows[latest as usize];
        Ok((latest + 1, row.root, row.count))
    }
}

impl<K: Kind> Ledger<K> for Tree<K> {
    fn open(cells: u32) -> Self {
        let mut rows = Vec::with_capacity(1024);
        rows.push(Row {
            root: 0,
            entered: None,
            count: 0,
        });
        Tree {
            nodes: Vec::with_capacity(cells as usize),
            rows,
        }
    }

    fn enter(&mut self, time: u64, effect: K) -> Result<(u32, u32), Refusal> {
        let (number, root, count) = self.latest_row()?;
        let before = self.nodes.len();
        let root = self.insert(
            root,
            Operation {
                number,
                time,
                effect,
            },
        );
        self.rows.push(Row {
            root,
            entered: Some(time),
            count: count + 1,
        });
        Ok((number, (self.nodes.len() - before) as u32))
    }

    fn withdraw(&mut self, operation: u32) -> Result<(u32, u32), Refusal> {
        let (number, root, count) = self.latest_row()?;
        let entered = self.rows.get(operation as usize).and_then(|row| row.entered);
        let Some(time) = entered.filter(|time| self.has(root, *time, operation)) else {
            return Err(Refusal::NoOperation(operation));
        };
        let before = self.nodes.len();
        let root = self.remove(root, time, operation);
        self.rows.push(Row {
            root,
            entered: None,
            count: count - 1,
        });
        Ok((number, (self.nodes.len() - before) as u32))
    }

    fn state(&self, belief: u32, time: u64) -> Result<K::State, Refusal> {
        let mut k = self.row(belief)?.root;
        let mut state = K::start();
        while k != 0 {
            let node = self.node(k);
            if node.operation.time <= time {
                if node.left != 0 {
                    state = self.node(node.left).total.act(state);
                }
                state = node.operation.effect.act(state);
                k = node.right;
            } else {
                k = node.left;
            }
        }
        Ok(state)
    }

    fn latest(&self, belief: u32, time: u64) -> Result<Option<(u32, u64)>, Refusal> {
        let mut k = self.row(belief)?.root;
        let mut found = None;
        while k != 0 {
            let node = self.node(k);
            if node.operation.time <= time {
                found = Some((node.operation.number, node.operation.time));
                k = node.right;
            } else {
                k = node.left;
            }
        }
        Ok(found)
    }

    fn count(&self, belief: u32) -> Result<u32, Refusal> {
        Ok(self.row(belief)?.count)
    }
}
