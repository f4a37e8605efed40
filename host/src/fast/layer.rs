//! One layer of the beam: its nodes by a hash of the variables without a preference, and the last of them by order.

use super::expression::State;
use super::program::Program;
use std::collections::BinaryHeap;

/// No node, at the end of a chain.
const NOBODY: u32 = u32::MAX;
/// The arrival of a free slot.
const GONE: u32 = u32::MAX;

/// A state with its path: the place of its parent among the back pointers, and the step from there.
#[derive(Clone, Copy, Default)]
pub struct Node {
    pub state: State,
    pub g: i64,
    pub h: i64,
    pub f: i64,
    pub parent: u32,
    pub step: u8,
}

#[derive(Clone, Copy)]
struct Slot {
    node: Node,
    hash: u64,
    arrival: u32,
    next: u32,
}

/// The order of rules 2 and 5, with the slot of the node that has it.
#[derive(Clone, Copy, PartialEq, Eq, PartialOrd, Ord)]
struct Place {
    f: i64,
    h: i64,
    arrival: u32,
    slot: u32,
}

/// What became of a child.
#[derive(Clone, Copy, PartialEq, Eq, Debug)]
pub enum Entry {
    Dominated,
    Entered,
    /// It entered, and the last of the others was cut.
    EnteredWithCut,
    /// The child itself was the last, and was cut.
    Cut,
}

#[derive(Default)]
pub struct Layer {
    slots: Vec<Slot>,
    free: Vec<u32>,
    /// The first slot of each chain, by the hash.
    chains: Vec<u32>,
    /// Kept nodes with the last on top, from the first cut on; removed ones may still stand below the top.
    last: BinaryHeap<Place>,
    cutting: bool,
    width: usize,
    kept: usize,
    arrivals: u32,
}

impl Layer {
    /// Empties the layer for a beam of this width.
    pub fn reset(&mut self, width: usize) {
        self.slots.clear();
        self.free.clear();
        self.last.clear();
        self.chains.clear();
        self.chains.resize(2 * width.next_power_of_two(), NOBODY);
        self.cutting = false;
        self.width = width;
        self.kept = 0;
        self.arrivals = 0;
    }

    pub fn node(&self, slot: u32) -> &Node {
        &self.slots[slot as usize].node
    }

    /// The chain of a hash.
    fn chain(&self, hash: u64) -> usize {
        hash as usize & (self.chains.len() - 1)
    }

    /// Rule 5: dominance, removal, entry, cut.
    pub fn offer(&mut self, program: &Program, child: &Node) -> Entry {
        let hash = program.hash(&child.state);
        let chain = self.chain(hash);
        let mut comparable = false;
        let mut at = self.chains[chain];
        while at != NOBODY {
            let slot = &self.slots[at as usize];
            let kept = &slot.node;
            if slot.hash == hash && program.comparable(&kept.state, &child.state) {
                if kept.g <= child.g && program.no_worse(&kept.state, &child.state) {
                    return Entry::Dominated;
                }
                comparable = true;
            }
            at = slot.next;
        }
        if comparable {
            self.remove_dominated(program, child, hash);
        }
        self.enter(child, hash)
    }

    /// Removes the kept nodes that the child dominates with g no less.
    fn remove_dominated(&mut self, program: &Program, child: &Node, hash: u64) {
        let mut at = self.chains[self.chain(hash)];
        while at != NOBODY {
            let slot = &self.slots[at as usize];
            let kept = &slot.node;
            let next = slot.next;
            if slot.hash == hash
                && child.g <= kept.g
                && program.comparable(&kept.state, &child.state)
                && program.no_worse(&child.state, &kept.state)
            {
                self.remove(at);
            }
            at = next;
        }
        self.drop_gone();
    }

    /// Puts the child in, and cuts the last if that makes too many.
    fn enter(&mut self, child: &Node, hash: u64) -> Entry {
        let full = self.kept == self.width;
        if full {
            self.begin_cutting();
            let last = self.last.peek().expect("a full layer has a last node");
            if (child.f, child.h) >= (last.f, last.h) {
                return Entry::Cut;
            }
            let last = last.slot;
            self.last.pop();
            self.remove(last);
            self.drop_gone();
        }
        self.insert(child, hash);
        if full {
            Entry::EnteredWithCut
        } else {
            Entry::Entered
        }
    }

    fn insert(&mut self, child: &Node, hash: u64) {
        let chain = self.chain(hash);
        let slot = Slot {
            node: *child,
            hash,
            arrival: self.arrivals,
            next: self.chains[chain],
        };
        let at = match self.free.pop() {
            Some(at) => {
                self.slots[at as usize] = slot;
                at
            }
            None => {
                self.slots.push(slot);
                self.slots.len() as u32 - 1
            }
        };
        self.chains[chain] = at;
        self.arrivals += 1;
        self.kept += 1;
        if self.cutting {
            if self.last.len() > 4 * self.width + 64 {
                self.rebuild_last();
            } else {
                self.last.push(self.place(at));
            }
        }
    }

    /// Takes a node out of its chain and frees its slot.
    fn remove(&mut self, at: u32) {
        let Slot { hash, next, .. } = self.slots[at as usize];
        let chain = self.chain(hash);
        let mut before = self.chains[chain];
        if before == at {
            self.chains[chain] = next;
        } else {
            while self.slots[before as usize].next != at {
                before = self.slots[before as usize].next;
            }
            self.slots[before as usize].next = next;
        }
        self.slots[at as usize].arrival = GONE;
        self.free.push(at);
        self.kept -= 1;
    }

    fn place(&self, at: u32) -> Place {
        let slot = &self.slots[at as usize];
        Place {
            f: slot.node.f,
            h: slot.node.h,
            arrival: slot.arrival,
            slot: at,
        }
    }

    fn kept_slots(&self) -> impl Iterator<Item = u32> + '_ {
        let numbered = self.slots.iter().enumerate();
        let kept = numbered.filter(|(_, slot)| slot.arrival != GONE);
        kept.map(|(at, _)| at as u32)
    }

    fn begin_cutting(&mut self) {
        if !self.cutting {
            self.cutting = true;
            self.rebuild_last();
        }
    }

    fn rebuild_last(&mut self) {
        self.last.clear();
        let places: Vec<Place> = self.kept_slots().map(|at| self.place(at)).collect();
        self.last.extend(places);
    }

    /// Takes removed nodes off the top.
    fn drop_gone(&mut self) {
        while let Some(top) = self.last.peek() {
            if self.slots[top.slot as usize].arrival == top.arrival {
                return;
            }
            self.last.pop();
        }
    }

    /// The slots of the kept nodes that pass the test, by f, h and arrival.
    pub fn ordered(&self, test: impl Fn(&Node) -> bool) -> Vec<u32> {
        let passing = self.kept_slots().filter(|at| test(self.node(*at)));
        let mut places: Vec<Place> = passing.map(|at| self.place(at)).collect();
        places.sort_unstable();
        places.iter().map(|place| place.slot).collect()
    }
}
