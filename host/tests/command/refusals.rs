//! `repgypsum explain` at refusals: the state and the expression of a trouble, or what is wrong with the input.

use super::explain::says;
use super::{designs_and, example, run_with};

/// A number that counts steps up from 0; its cost, its effect and more may meet trouble.
fn counter(cost: &str, effect: &str, more: &str) -> String {
    format!(
        "cost sum\nnumber n = 0\ntransition go on:\n    {cost}\n    n := {effect}\nbase:\n    when n = 9\n{more}"
    )
}

/// Trouble in costs: the state, the expression, and the value of a negative one.
#[test]
fn troubles_in_costs() {
    let cost = |cost: &str| counter(&format!("cost {cost}"), "n + 1", "");
    let due = [
        "Refused 13, negative cost.",
        "The path to the state evaluated has 3 steps and costs 3.",
        "The state: n = 3.",
        "Met in the cost of transition 0 go on, 2 - n.",
        "Its value there is -1.",
        "      3     0       3  0 go on     n = 3\n",
    ];
    says("cost", &cost("2 - n"), "", 1, &due);
    let due = [
        "Refused 12, quotient by zero.",
        "The state: n = 3.",
        "Met in the cost of transition 0 go on, max(0, 1 / (3 - n)).",
    ];
    says("cost-zero", &cost("max(0, 1 / (3 - n))"), "", 1, &due);
    let due = [
        "Refused 11, number out of range.",
        "The state: n = 2.",
        "Met in the cost of transition 0 go on, n * 2000000000.",
    ];
    says("cost-out", &cost("n * 2000000000"), "", 1, &due);
}

/// Trouble in each other place where a state is evaluated.
#[test]
fn troubles_elsewhere() {
    let plain = |more: &str| counter("cost 1", "n + 1", more);
    let condition = counter("when not 1 / (1 - n) = 7\n    cost 1", "n + 1", "");
    let due = [
        "has 1 step and costs 1",
        "Met in condition 0 of transition 0 go on, not 1 / (1 - n) = 7.",
    ];
    says("condition", &condition, "", 1, &due);
    let effect = counter("cost 0", "n + 2147483647", "");
    let due = [
        "has 1 step and costs 0",
        "Met in the effect of transition 0 go on on n, n + 2147483647.",
    ];
    says("effect", &effect, "", 1, &due);
    let constraint = plain("constraint not 1 / (2 - n) = 7");
    let due = [
        "has 2 steps and costs 2",
        "Met in constraint 0, not 1 / (2 - n) = 7.",
    ];
    says("constraint", &constraint, "", 1, &due);
    let bound = plain("bound 0\nbound 1 / (n - 2)");
    let due = ["has 2 steps and costs 2", "Met in bound 1, 1 / (n - 2)."];
    says("child-bound", &bound, "", 1, &due);
    let target = plain("constraint 1 / n = 1\nbound 1 / n");
    let due = [
        "has 0 steps and costs 0. The bound then stood at 0.",
        "Met in constraint 0, 1 / n = 1.",
    ];
    says("target", &target, "", 1, &due);
    let target = plain("bound 1 / n");
    let due = ["has 0 steps and costs 0", "Met in bound 0, 1 / n."];
    says("target-bound", &target, "", 1, &due);
    let base = plain("").replace("n = 9", "n = 3\n    when 1 / (n - 3) = 1");
    let due = [
        "has 3 steps and costs 3",
        "Met in condition 1 of base case 0, 1 / (n - 3) = 1.",
    ];
    says("base", &base, "", 1, &due);
}

#[test]
fn refusals_by_the_input() {
    let designs = designs_and("");
    let due = [
        "Refused 2, setting out of range.",
        "The widest beam is 4,097; it has to be a power of two from 1 to 4,096.",
        "The length limit is 0; it has to be from 1 to 256.",
    ];
    says("setting", &designs, "--width 4097 --length 0", 1, &due);
    let due = [
        "Refused 3, too little lent.",
        "Lent: 64 plan bytes and 1 working word.",
        "Due at these settings: 64 plan bytes and 2,064 working words.",
    ];
    says("lent", &designs, "--words 1", 1, &due);
    let model = std::fs::read(example("three-designs.model")).unwrap();
    let explain = |bytes: &[u8], words: &[&str]| {
        let left = run_with(&["explain"], bytes);
        assert_eq!(left.status, 1);
        for word in words {
            assert!(left.text().contains(word), "{word}\n{}", left.text());
        }
    };
    explain(
        &vec![0; 70_000],
        &[
            "Refused 1, ",
            "Model standard input, more than 65,536 bytes.",
        ],
    );
    explain(&[], &["Refused 4, ", "It has 0 bytes."]);
    explain(&model[..99], &["Refused 4, ", "It has 99 bytes."]);
    explain(
        &[0x77],
        &[
            "Refused 5, ",
            "stops at byte 0, counted from 0, which is 77",
        ],
    );
    explain(
        &[1, 0, 7, 9, 0x30],
        &[
            "Refused 6, ",
            "stops at byte 4, counted from 0, which is 30",
        ],
    );
    explain(
        &[1, 2, 0x0E],
        &[
            "Refused 7, ",
            "stops at byte 1, counted from 0, which is 02",
        ],
    );
    let deep = [vec![1, 0, 0x0C], vec![0x57; 40]].concat();
    explain(
        &deep,
        &[
            "Refused 8, ",
            "stops at byte 35, counted from 0, which is 57",
        ],
    );
    let longer = [&model[..], &[3, 4]].concat();
    explain(
        &longer,
        &[
            "Refused 9, ",
            "stops at byte 180, counted from 0, which is 03",
        ],
    );
}
