//! The plan check: whether a sequence of transition numbers is a plan of the model, and its costs.

use super::meaning::Costs;
use super::read::read_model;
use super::syntax::Model;
use crate::numbers::limit;
use crate::numbers::refusal::{BAD_SETTING, MODEL_TOO_LONG, NOT_A_PLAN};

/// 0, the cost of the plan at high figures and that at low ones; or a refusal number and twice 0.
pub fn plan_check(model: &[u8], plan: &[u8]) -> (u8, u64, u64) {
    match checked_costs(model, plan) {
        Ok(costs) => (0, costs.high as u64, costs.low as u64),
        Err(refusal) => (refusal, 0, 0),
    }
}

fn checked_costs(model: &[u8], plan: &[u8]) -> Result<Costs, u8> {
    if model.len() > limit::MODEL_BYTES {
        return Err(MODEL_TOO_LONG);
    }
    if plan.len() > limit::PLAN_BYTES {
        return Err(BAD_SETTING);
    }
    walk(&read_model(model)?, plan)
}

/// The costs of the plan: the target's constraints, then the steps one by one.
fn walk(model: &Model, plan: &[u8]) -> Result<Costs, u8> {
    let target = model.target();
    if !model.meets_constraints(&target)? {
        return Err(NOT_A_PLAN);
    }
    let mut state = target;
    let mut costs = Costs::default();
    for number in plan {
        if model.is_base(&state)? {
            return Err(NOT_A_PLAN);
        }
        let Some(transition) = model.transitions.get(usize::from(*number)) else {
            return Err(NOT_A_PLAN);
        };
        if !model.all_hold(&transition.conditions, &state)? {
            return Err(NOT_A_PLAN);
        }
        let step_costs = model.step_costs(transition, &state)?;
        state = model.after(transition, &state)?;
        if !model.meets_constraints(&state)? {
            return Err(NOT_A_PLAN);
        }
        costs = model.join_costs(costs, step_costs);
    }
    if !model.is_base(&state)? {
        return Err(NOT_A_PLAN);
    }
    Ok(costs)
}
