//! The rounds of a run by the rules of documents 01 and 02, over two layers and back pointers.

use super::ladder::Ladder;
use super::layer::{Entry, Layer, Node};
use super::program::{Program, Transition};
use super::Counts;
use crate::answer::Answer;
use crate::numbers::verdict;

/// The parent of a node and the step from it. The target is at 0.
#[derive(Clone, Copy)]
struct Back {
    parent: u32,
    step: u8,
}

/// The place of the target among the back pointers.
const TARGET: u32 = 0;

/// How a run ends.
enum End {
    Verdict(u8),
    Trouble {
        number: u8,
        path: Vec<u8>,
        cost: i64,
    },
}

/// What one round has met.
#[derive(Default)]
struct Marks {
    width: bool,
    length: bool,
    better_plan: bool,
}

/// A run of a model in which some step has a high cost of its own, or of one in which none has.
pub struct Run<'a, const RANGED: bool> {
    program: &'a Program,
    ladder: Ladder,
    length: u64,
    budget: u64,
    low: i64,
    /// The cost of the best plan, above every number without one, and the plan.
    best: i64,
    plan: Option<Vec<u8>>,
    expansions: u64,
    rounds: u64,
    counts: Counts,
    backs: Vec<Back>,
    next: Layer,
    /// The child under way.
    child: Node,
    marks: Marks,
}

impl<'a, const RANGED: bool> Run<'a, RANGED> {
    pub fn new(program: &'a Program, ladder: Ladder, length: u64, budget: u64) -> Self {
        Run {
            program,
            ladder,
            length,
            budget,
            low: 0,
            best: i64::MAX,
            plan: None,
            expansions: 0,
            rounds: 1,
            counts: Counts::default(),
            backs: Vec::new(),
            next: Layer::default(),
            child: Node::default(),
            marks: Marks::default(),
        }
    }

    /// Runs to the end.
    pub fn answer(mut self) -> (Answer, Vec<u8>, Counts) {
        let end = match self.all_rounds() {
            Ok(number) => End::Verdict(number),
            Err(end) => end,
        };
        let counts = self.counts;
        let (answer, plan) = self.ended(end);
        (answer, plan, counts)
    }

    fn ended(self, end: End) -> (Answer, Vec<u8>) {
        let tallied = Answer {
            bound: self.low as u64,
            expansions: self.expansions,
            rounds: self.rounds,
            width: self.ladder.width(),
            ..Answer::default()
        };
        match end {
            End::Trouble { number, path, cost } => {
                let answer = Answer {
                    refused: true,
                    verdict: number,
                    cost: cost as u64,
                    length: path.len() as u64,
                    low: self.program.at_low(&path) as u64,
                    ..tallied
                };
                (answer, path)
            }
            End::Verdict(number) => {
                let cost = self.plan.as_ref().map_or(0, |_| self.best as u64);
                let flag = self.plan.is_some();
                let plan = self.plan.unwrap_or_default();
                let bound = match number {
                    verdict::CHEAPEST => cost,
                    verdict::NO_PLAN => 0,
                    _ => tallied.bound,
                };
                let answer = Answer {
                    verdict: number,
                    flag,
                    cost,
                    bound,
                    length: plan.len() as u64,
                    low: self.program.at_low(&plan) as u64,
                    ..tallied
                };
                (answer, plan)
            }
        }
    }

    /// Rounds to the first that ends the run, and its verdict.
    fn all_rounds(&mut self) -> Result<u8, End> {
        let target = self.target()?;
        let mut layer = Layer::default();
        loop {
            if let Some(number) = self.round(&target, &mut layer)? {
                return Ok(number);
            }
            self.rounds += 1;
            self.ladder.climb();
        }
    }

    /// Rule 1: the target, which meets the constraints, and whose h is low from then on.
    fn target(&mut self) -> Result<Node, End> {
        let state = self.program.target;
        self.backs.push(Back { parent: 0, step: 0 });
        match self.program.meets_constraints(&state) {
            Ok(true) => {}
            Ok(false) => return Err(End::Verdict(verdict::NO_PLAN)),
            Err(number) => return Err(self.trouble(number, TARGET, 0)),
        }
        let h = self.program.h(&state);
        let h = h.map_err(|number| self.trouble(number, TARGET, 0))?;
        self.low = h;
        Ok(Node {
            state,
            g: 0,
            h,
            f: self.program.join(0, h),
            parent: TARGET,
            step: 0,
        })
    }

    /// Rules 2 to 7 for one round: a verdict, or another round begins.
    fn round(&mut self, target: &Node, layer: &mut Layer) -> Result<Option<u8>, End> {
        self.marks = Marks::default();
        self.backs.truncate(1);
        layer.reset(1);
        layer.offer(self.program, target);
        let mut order = vec![0];
        let mut first_back = TARGET;
        for steps in 0..=self.length {
            self.next.reset(self.ladder.width() as usize);
            for (back, slot) in (first_back..).zip(&order) {
                let node = *layer.node(*slot);
                self.take(&node, back, steps)?;
            }
            std::mem::swap(layer, &mut self.next);
            order = layer.ordered(|node| node.f < self.best);
            self.raise_low(layer, &order);
            if order.is_empty() || self.marks.better_plan {
                break;
            }
            first_back = self.backs.len() as u32;
            let nodes = order.iter().map(|slot| layer.node(*slot));
            self.backs.extend(nodes.map(|node| Back {
                parent: node.parent,
                step: node.step,
            }));
        }
        Ok(self.after_round(order.is_empty()))
    }

    /// Rule 6: low rises to the least f that remains, unless the round has cut.
    fn raise_low(&mut self, layer: &Layer, order: &[u32]) {
        if let (false, Some(first)) = (self.marks.width, order.first()) {
            self.low = self.low.max(layer.node(*first).f);
        }
    }

    /// Rule 7.
    fn after_round(&self, none_remaining: bool) -> Option<u8> {
        let marks = &self.marks;
        if none_remaining && !marks.width && !marks.length {
            return Some(match self.plan {
                Some(_) => verdict::CHEAPEST,
                None => verdict::NO_PLAN,
            });
        }
        if marks.better_plan {
            None
        } else if !marks.width {
            Some(verdict::LENGTH_STOP)
        } else if self.ladder.at_top() {
            Some(verdict::WIDTH_STOP)
        } else {
            None
        }
    }

    /// Rules 2 and 3 for one node of a layer.
    fn take(&mut self, node: &Node, back: u32, steps: u64) -> Result<(), End> {
        let base = self.program.is_base(&node.state);
        if base.map_err(|number| self.trouble(number, back, node.g))? {
            return self.take_base(node, back);
        }
        if steps == self.length {
            self.marks.length |= node.f < self.best;
            return Ok(());
        }
        if self.expansions == self.budget {
            return Err(End::Verdict(verdict::BUDGET_SPENT));
        }
        self.expansions += 1;
        let program = self.program;
        for (number, transition) in program.transitions.iter().enumerate() {
            self.child(node, back, number as u8, transition)?;
        }
        Ok(())
    }

    /// Rule 2 for a base state.
    fn take_base(&mut self, node: &Node, back: u32) -> Result<(), End> {
        if node.g >= self.best {
            return Ok(());
        }
        self.best = node.g;
        self.plan = Some(self.path(back));
        self.marks.better_plan = true;
        match node.g.cmp(&self.low) {
            std::cmp::Ordering::Less => Err(End::Verdict(verdict::CONTRADICTED)),
            std::cmp::Ordering::Equal => Err(End::Verdict(verdict::CHEAPEST)),
            std::cmp::Ordering::Greater => Ok(()),
        }
    }

    /// Rules 4 and 5 for one transition.
    #[inline]
    fn child(
        &mut self,
        parent: &Node,
        back: u32,
        step: u8,
        transition: &Transition,
    ) -> Result<(), End> {
        let program = self.program;
        let cost = program.step::<RANGED>(transition, &parent.state, &mut self.child.state);
        let cost = cost.map_err(|number| self.trouble(number, back, parent.g))?;
        let Some(cost) = cost else {
            return Ok(());
        };
        let g = program.join(parent.g, cost);
        let met = program.meets_constraints(&self.child.state);
        if !met.map_err(|number| self.child_trouble(number, back, step, g))? {
            return Ok(());
        }
        let h = program.h(&self.child.state);
        let h = h.map_err(|number| self.child_trouble(number, back, step, g))?;
        let f = program.join(g, h);
        if f < self.best {
            self.child.g = g;
            self.child.h = h;
            self.child.f = f;
            self.child.parent = back;
            self.child.step = step;
            self.offer();
        }
        Ok(())
    }

    /// Rule 5 for the child under way.
    fn offer(&mut self) {
        self.counts.children += 1;
        match self.next.offer(self.program, &self.child) {
            Entry::Dominated => {}
            Entry::Entered => self.counts.entered += 1,
            Entry::EnteredWithCut => {
                self.counts.entered += 1;
                self.marks.width = true;
            }
            Entry::Cut => self.marks.width = true,
        }
    }

    /// The steps from the target to a node.
    fn path(&self, mut back: u32) -> Vec<u8> {
        let mut path = Vec::new();
        while back != TARGET {
            let Back { parent, step } = self.backs[back as usize];
            path.push(step);
            back = parent;
        }
        path.reverse();
        path
    }

    #[cold]
    fn trouble(&self, number: u8, back: u32, cost: i64) -> End {
        End::Trouble {
            number,
            path: self.path(back),
            cost,
        }
    }

    #[cold]
    fn child_trouble(&self, number: u8, back: u32, step: u8, cost: i64) -> End {
        let mut path = self.path(back);
        path.push(step);
        End::Trouble { number, path, cost }
    }
}
