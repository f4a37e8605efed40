//! The search: complete anytime beam search by the rules of document 01, with the target tested as document 02, §1 says,
//! with the length of the loading profile, §2, with the widths of a list, §4, and on high costs with the low ones beside them, §5.

use super::meaning::{Costs, State};
use super::read::read_model;
use super::syntax::{Model, Transition};
use super::widths::Widths;
use crate::answer::Answer;
use crate::numbers::refusal::{
    BAD_SETTING, BAD_WIDTHS, MODEL_TOO_LONG, OUTSIDE_PROFILE, TOO_LITTLE_LENT,
};
use crate::numbers::{limit, verdict, words_needed};
use std::cmp::Ordering;

/// The answer of a search, with the plan or path at the start of `buffer`. `words` is the number of words lent.
pub fn search(
    model: &[u8],
    width: u64,
    length: u64,
    budget: u64,
    buffer: &mut [u8],
    words: u64,
) -> Answer {
    plain(model, Widths::UpTo(width), length, budget, buffer, words)
}

/// The same with a list of widths in the place of the widest beam.
pub fn search_widths(
    model: &[u8],
    widths: &[u16],
    length: u64,
    budget: u64,
    buffer: &mut [u8],
    words: u64,
) -> Answer {
    plain(model, Widths::Listed(widths), length, budget, buffer, words)
}

/// A search in the loading profile, which chooses the length.
pub fn load(model: &[u8], width: u64, budget: u64, buffer: &mut [u8], words: u64) -> Answer {
    loading(model, Widths::UpTo(width), budget, buffer, words)
}

/// The same with a list of widths.
pub fn load_widths(
    model: &[u8],
    widths: &[u16],
    budget: u64,
    buffer: &mut [u8],
    words: u64,
) -> Answer {
    loading(model, Widths::Listed(widths), budget, buffer, words)
}

fn plain(
    model: &[u8],
    widths: Widths,
    length: u64,
    budget: u64,
    buffer: &mut [u8],
    words: u64,
) -> Answer {
    match admitted(model, widths, length, buffer.len() as u64, words) {
        Ok(model) => Run::of(&model, widths, length, budget).answered(buffer),
        Err(refusal) => Answer::refused_by_input(refusal),
    }
}

fn loading(model: &[u8], widths: Widths, budget: u64, buffer: &mut [u8], words: u64) -> Answer {
    match admitted_loading(model, widths, buffer.len() as u64, words) {
        Ok((model, length)) => Run::of(&model, widths, length, budget).answered(buffer),
        Err(refusal) => Answer::refused_by_input(refusal),
    }
}

/// Whether a search can have these widths and this length; in the loading profile none is given.
fn settings_fit(widths: Widths, length: Option<u64>) -> Result<(), u8> {
    let length_fits = |length| (1..=limit::LENGTH).contains(&length);
    if !widths.setting_fits() || !length.is_none_or(length_fits) {
        return Err(BAD_SETTING);
    }
    if !widths.list_fits() {
        return Err(BAD_WIDTHS);
    }
    Ok(())
}

/// The model, or the refusal by the input.
fn admitted(
    model: &[u8],
    widths: Widths,
    length: u64,
    plan_bytes: u64,
    words: u64,
) -> Result<Model, u8> {
    if model.len() > limit::MODEL_BYTES {
        return Err(MODEL_TOO_LONG);
    }
    settings_fit(widths, Some(length))?;
    if plan_bytes < length || words < words_needed(widths.widest(), length) {
        return Err(TOO_LITTLE_LENT);
    }
    read_model(model)
}

/// The model and the length that is chosen for it, or the refusal by the input.
fn admitted_loading(
    model: &[u8],
    widths: Widths,
    plan_bytes: u64,
    words: u64,
) -> Result<(Model, u64), u8> {
    if model.len() > limit::MODEL_BYTES {
        return Err(MODEL_TOO_LONG);
    }
    settings_fit(widths, None)?;
    let model = read_model(model)?;
    if !model.in_profile() {
        return Err(OUTSIDE_PROFILE);
    }
    let chosen = model.loading_length();
    if plan_bytes < chosen || words < words_needed(widths.widest(), chosen) {
        return Err(TOO_LITTLE_LENT);
    }
    Ok((model, chosen))
}

/// How a run ends: with a verdict, or with trouble in a state reached by a path.
enum End {
    Verdict(u8),
    Trouble {
        refusal: u8,
        path: Vec<u8>,
        costs: Costs,
    },
}

/// A state of a layer with the path that reached it. g is the path's cost at high figures; nothing is decided by that at low ones.
#[derive(Clone)]
struct Node {
    state: State,
    g: i64,
    at_low: i64,
    h: i64,
    f: i64,
    path: Vec<u8>,
}

impl Node {
    fn trouble(&self, refusal: u8) -> End {
        End::Trouble {
            refusal,
            path: self.path.clone(),
            costs: self.costs(),
        }
    }

    fn costs(&self) -> Costs {
        Costs {
            low: self.at_low,
            high: self.g,
        }
    }

    /// Whether this node goes before one that arrived earlier: by f, then h; at equal f and h it goes behind.
    fn comes_before(&self, earlier: &Node) -> bool {
        (self.f, self.h) < (earlier.f, earlier.h)
    }
}

/// The nodes of the next layer by f, h and arrival, and what the round has met.
#[derive(Default)]
struct Round {
    kept: Vec<Node>,
    width_mark: bool,
    length_mark: bool,
    found_plan: bool,
}

struct Run<'a> {
    model: &'a Model,
    widths: Widths<'a>,
    length: u64,
    budget: u64,
    low: i64,
    best: Option<(Costs, Vec<u8>)>,
    expansions: u64,
    rounds: u64,
    width: u64,
}

impl<'a> Run<'a> {
    fn of(model: &'a Model, widths: Widths<'a>, length: u64, budget: u64) -> Run<'a> {
        Run {
            model,
            widths,
            length,
            budget,
            low: 0,
            best: None,
            expansions: 0,
            rounds: 1,
            width: widths.of_round(1),
        }
    }

    fn answered(mut self, buffer: &mut [u8]) -> Answer {
        let end = self.all_rounds();
        self.answer(end, buffer)
    }

    /// Whether a cost is below the best; without a plan every cost is.
    fn below_best(&self, cost: i64) -> bool {
        match &self.best {
            None => true,
            Some((best, _)) => cost < best.high,
        }
    }

    /// Whether the state of one node dominates that of another, with g no greater.
    fn dominates(&self, first: &Node, second: &Node) -> bool {
        first.g <= second.g && self.model.dominates(&first.state, &second.state)
    }

    fn all_rounds(&mut self) -> End {
        let target = match self.target() {
            Ok(target) => target,
            Err(end) => return end,
        };
        loop {
            let mut round = Round::default();
            if let Err(end) = self.round(&target, &mut round) {
                return end;
            }
            self.rounds += 1;
            self.width = self.widths.of_round(self.rounds);
        }
    }

    /// Rule 1: h of the target is low from then on. A target that breaks a constraint has no plan, which is found before h.
    fn target(&mut self) -> Result<Node, End> {
        let mut node = Node {
            state: self.model.target(),
            g: 0,
            at_low: 0,
            h: 0,
            f: 0,
            path: Vec::new(),
        };
        let met = self.model.meets_constraints(&node.state);
        if !met.map_err(|n| node.trouble(n))? {
            return Err(End::Verdict(verdict::NO_PLAN));
        }
        node.h = self.model.h(&node.state).map_err(|n| node.trouble(n))?;
        node.f = self.model.join(0, node.h);
        self.low = node.h;
        Ok(node)
    }

    /// Rules 2 to 7 for one round. No end means that another round begins.
    fn round(&mut self, target: &Node, round: &mut Round) -> Result<(), End> {
        let mut layer = vec![target.clone()];
        for steps in 0..=self.length {
            for node in &layer {
                self.take(node, steps, round)?;
            }
            layer = std::mem::take(&mut round.kept);
            layer.retain(|node| self.below_best(node.f));
            self.raise_low(&layer, round);
            if layer.is_empty() || round.found_plan {
                break;
            }
        }
        self.after_round(layer.is_empty(), round)
    }

    /// Rule 6: low rises to the least f that remains, unless the round has cut.
    fn raise_low(&mut self, layer: &[Node], round: &Round) {
        if round.width_mark {
            return;
        }
        if let Some(least) = layer.iter().map(|node| node.f).min() {
            self.low = self.low.max(least);
        }
    }

    /// Rule 7.
    fn after_round(&self, none_remaining: bool, round: &Round) -> Result<(), End> {
        let marked = round.width_mark || round.length_mark;
        if none_remaining && !marked {
            return Err(End::Verdict(match self.best {
                Some(_) => verdict::CHEAPEST,
                None => verdict::NO_PLAN,
            }));
        }
        if round.found_plan {
            return Ok(());
        }
        match (round.width_mark, self.width == self.widths.widest()) {
            (true, false) => Ok(()),
            (true, true) => Err(End::Verdict(verdict::WIDTH_STOP)),
            (false, _) => Err(End::Verdict(verdict::LENGTH_STOP)),
        }
    }

    /// Rules 2 and 3 for one state of a layer.
    fn take(&mut self, node: &Node, steps: u64, round: &mut Round) -> Result<(), End> {
        let base = self.model.is_base(&node.state);
        if base.map_err(|n| node.trouble(n))? {
            return self.take_base(node, round);
        }
        if steps == self.length {
            round.length_mark |= self.below_best(node.f);
            return Ok(());
        }
        if self.expansions == self.budget {
            return Err(End::Verdict(verdict::BUDGET_SPENT));
        }
        self.expansions += 1;
        for (number, transition) in self.model.transitions.iter().enumerate() {
            if let Some(child) = self.child(node, number as u8, transition)? {
                self.keep(child, round);
            }
        }
        Ok(())
    }

    /// Rule 2 for a base state.
    fn take_base(&mut self, node: &Node, round: &mut Round) -> Result<(), End> {
        if !self.below_best(node.g) {
            return Ok(());
        }
        self.best = Some((node.costs(), node.path.clone()));
        round.found_plan = true;
        match node.g.cmp(&self.low) {
            Ordering::Equal => Err(End::Verdict(verdict::CHEAPEST)),
            Ordering::Less => Err(End::Verdict(verdict::CONTRADICTED)),
            Ordering::Greater => Ok(()),
        }
    }

    /// Rule 4 for one transition: the child, if the step is allowed and its f is below the best.
    fn child(
        &self,
        parent: &Node,
        number: u8,
        transition: &Transition,
    ) -> Result<Option<Node>, End> {
        let model = self.model;
        let in_parent = |n| parent.trouble(n);
        let allowed = model.all_hold(&transition.conditions, &parent.state);
        if !allowed.map_err(in_parent)? {
            return Ok(None);
        }
        let step_costs = model.step_costs(transition, &parent.state);
        let costs = model.join_costs(parent.costs(), step_costs.map_err(in_parent)?);
        let state = model.after(transition, &parent.state).map_err(in_parent)?;
        let mut child = Node {
            state,
            g: costs.high,
            at_low: costs.low,
            h: 0,
            f: 0,
            path: [&parent.path[..], &[number]].concat(),
        };
        let in_child = |n| child.trouble(n);
        if !model.meets_constraints(&child.state).map_err(in_child)? {
            return Ok(None);
        }
        child.h = model.h(&child.state).map_err(in_child)?;
        child.f = model.join(child.g, child.h);
        Ok(self.below_best(child.f).then_some(child))
    }

    /// Rule 5.
    fn keep(&self, child: Node, round: &mut Round) {
        let kept = &mut round.kept;
        if kept.iter().any(|node| self.dominates(node, &child)) {
            return;
        }
        kept.retain(|node| !self.dominates(&child, node));
        let behind = kept.iter().position(|node| child.comes_before(node));
        let place = behind.unwrap_or(kept.len());
        kept.insert(place, child);
        if kept.len() > self.width as usize {
            kept.pop();
            round.width_mark = true;
        }
    }

    /// The answer's fields, and the plan or path into the buffer.
    fn answer(self, end: End, buffer: &mut [u8]) -> Answer {
        let answer = Answer {
            bound: self.low as u64,
            expansions: self.expansions,
            rounds: self.rounds,
            width: self.width,
            ..Answer::default()
        };
        match end {
            End::Trouble {
                refusal,
                path,
                costs,
            } => {
                buffer[..path.len()].copy_from_slice(&path);
                Answer {
                    refused: true,
                    verdict: refusal,
                    cost: costs.high as u64,
                    length: path.len() as u64,
                    low: costs.low as u64,
                    ..answer
                }
            }
            End::Verdict(number) => {
                let flag = self.best.is_some();
                let (costs, plan) = self.best.unwrap_or_default();
                buffer[..plan.len()].copy_from_slice(&plan);
                let bound = match number {
                    verdict::CHEAPEST => costs.high,
                    verdict::NO_PLAN => 0,
                    _ => self.low,
                };
                Answer {
                    verdict: number,
                    flag,
                    cost: costs.high as u64,
                    bound: bound as u64,
                    length: plan.len() as u64,
                    low: costs.low as u64,
                    ..answer
                }
            }
        }
    }
}
