//! The theorems that answers cite, as docs/AUDIT.md names them.

/// A theorem: its name, what it says in a sentence, and the file where it stands.
pub struct Theorem {
    pub name: &'static str,
    pub says: &'static str,
    pub file: &'static str,
}

pub const A_PLAN: &str = "a_plan_given_is_a_plan";
pub const CHEAPEST: &str = "cheapest_costs_no_more";
pub const NO_PLAN: &str = "no_plan_means_none";
pub const STOPPED: &str = "stopped_bound_below_every_plan";
pub const CONTRADICTED: &str = "contradicted_only_if_false";
pub const BROKEN_TARGET: &str = "no_plan_from_broken_target";
pub const BROKEN_TARGET_ANSWER: &str = "broken_target_has_no_plan";
pub const NO_LENGTH_STOP: &str = "no_length_stop_in_profile";
pub const RISING_LIST: &str = "rising_list_guarantee";
pub const BUILT_IN: &str = "built_in_is_a_list";
pub const NOTHING_DECLARED: &str = "nothing_declared_is_true";
pub const PLAN_CHECK: &str = "plan_check_exact";
pub const REAL_COST: &str = "real_cost_between_the_figures";
pub const CHEAPEST_IN_RANGES: &str = "cheapest_hours_least_in_ranges";
pub const NO_PLAN_IN_RANGES: &str = "no_plan_means_none_in_ranges";
pub const STOPPED_IN_RANGES: &str = "stopped_bound_is_for_high_costs";
pub const BOTH_COSTS: &str = "plan_check_gives_both";
pub const LOW_REACHED: &str = "low_is_real";
pub const HIGH_REACHED: &str = "high_is_real";

const REAL: &str = "crates/model/proofs/Real.antt";
const MISSION: &str = "crates/search/proofs/Mission.antt";

/// All of them.
pub const THEOREMS: [Theorem; 19] = [
    Theorem {
        name: A_PLAN,
        says: "Under every verdict a plan given is a plan of the model, at the cost stated.",
        file: MISSION,
    },
    Theorem {
        name: CHEAPEST,
        says: "Where the mark is cheapest a plan is given, and if the declarations are true every plan of the model costs at least as much, of whatever length.",
        file: MISSION,
    },
    Theorem {
        name: NO_PLAN,
        says: "Where the mark is no plan and the declarations are true, the model has none, of whatever length.",
        file: MISSION,
    },
    Theorem {
        name: STOPPED,
        says: "The bound of a stopped run is at most the cost of every plan, if the declarations are true.",
        file: MISSION,
    },
    Theorem {
        name: CONTRADICTED,
        says: "The mark contradicted is given only if a declaration is false.",
        file: MISSION,
    },
    Theorem {
        name: BROKEN_TARGET,
        says: "A model whose target breaks a constraint has no plan, whatever it declares.",
        file: MISSION,
    },
    Theorem {
        name: BROKEN_TARGET_ANSWER,
        says: "Where the target breaks a constraint the answer is no plan, without an expansion, in one round.",
        file: MISSION,
    },
    Theorem {
        name: NO_LENGTH_STOP,
        says: "No run in the loading profile ends in a length stop, whatever the widths and the budget are.",
        file: MISSION,
    },
    Theorem {
        name: RISING_LIST,
        says: "With a rising list of widths every mark means what it means without one, the last entry being the widest beam.",
        file: MISSION,
    },
    Theorem {
        name: BUILT_IN,
        says: "A run up to a widest beam W is the run with the list 1, 2, 4 up to W, which rises.",
        file: MISSION,
    },
    Theorem {
        name: NOTHING_DECLARED,
        says: "The declarations of a model without bounds and preferences are true.",
        file: "crates/model/proofs/Declared.antt",
    },
    Theorem {
        name: PLAN_CHECK,
        says: "A sequence of at most 256 steps passes the plan check exactly if it is a plan of the model, and with its cost.",
        file: MISSION,
    },
    Theorem {
        name: REAL_COST,
        says: "For every choice of step costs inside the ranges, the real cost of a plan given lies between the low figure and the cost of the answer.",
        file: MISSION,
    },
    Theorem {
        name: CHEAPEST_IN_RANGES,
        says: "Where the mark is cheapest no plan of the model has a smaller high cost, of whatever length, if the bounds are true of the low costs and the preferences of the high ones.",
        file: MISSION,
    },
    Theorem {
        name: NO_PLAN_IN_RANGES,
        says: "Where the mark is no plan the model has none, of whatever length, if the bounds are true of the low costs and the preferences of the high ones.",
        file: MISSION,
    },
    Theorem {
        name: STOPPED_IN_RANGES,
        says: "The bound of a stopped run is at most the high cost of every plan, if the bounds are true of the low costs and the preferences of the high ones.",
        file: MISSION,
    },
    Theorem {
        name: BOTH_COSTS,
        says: "Of a plan the plan check gives the cost at high figures by one call and that at low figures by another.",
        file: MISSION,
    },
    Theorem {
        name: LOW_REACHED,
        says: "The low figure of a plan is its real cost where every step takes its low cost.",
        file: REAL,
    },
    Theorem {
        name: HIGH_REACHED,
        says: "The cost of a plan is its real cost where every step takes its high cost.",
        file: REAL,
    },
];

/// The theorems that a sentence cites in brackets, in the order of the sentence.
pub fn cited(sentence: &str) -> Vec<&'static Theorem> {
    let brackets = sentence.split('[').skip(1);
    let names = brackets.filter_map(|rest| rest.split_once(']'));
    names
        .filter_map(|(name, _)| THEOREMS.iter().find(|theorem| theorem.name == name))
        .collect()
}
