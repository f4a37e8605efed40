//! `repgypsum check`: the plan check's answer, cost and low figure, and the two ways to give a plan.

use super::{example, run, run_with, EXAMPLES};
use repgypsum_host::cases::{groups, Call, Outcome};

#[test]
fn plans_of_the_examples() {
    for name in EXAMPLES {
        let line = std::fs::read_to_string(example(&format!("{name}.out"))).unwrap();
        let (fields, steps) = line.trim_end().split_once(" : ").unwrap();
        let field = |place: usize| fields.split(' ').nth(place).unwrap();
        let (cost, low) = (field(2), field(8));
        let plan = steps.replace(' ', ",");
        for ending in ["model", "dp"] {
            let path = example(&format!("{name}.{ending}"));
            run(&["check", "--plan", &plan, &path]).is(0, &format!("0 {cost} {low}\n"));
            run(&["check", &path, "--plan", "0"]).gives(1, "14 0 0\n");
        }
    }
}

#[test]
fn forms_of_plans() {
    let designs = example("three-designs.model");
    run(&["check", "--plan", "2,1,0", &designs]).is(0, "0 9 9\n");
    run(&["check", "--plan=2,1,0", &designs]).is(0, "0 9 9\n");
    run(&["check", "--plan-hex", "020100", &designs]).is(0, "0 9 9\n");
    run(&["check", "--plan-hex", "", &designs]).gives(1, "14 0 0\n");
    run(&["check", "--plan", "", &designs]).gives(1, "14 0 0\n");
    run(&["check", "--plan", "255", &designs]).gives(1, "14 0 0\n");
    run(&["check", "--plan-hex", "fF", &designs]).gives(1, "14 0 0\n");
    let model = std::fs::read(&designs).unwrap();
    run_with(&["check", "--plan", "0,1,2"], &model).is(0, "0 7 7\n");
}

#[test]
fn wrong_forms() {
    for plan in ["256", "0,", ",", "0,,1", "-1", "a", "0 1 x", "+1", "0;1"] {
        let left = run(&["check", "--plan", plan, &example("sop.model")]);
        left.complains(2, "is no number from 0 to 255");
    }
    for plan in ["0", "000", "0g", "+1", "0 ", "é"] {
        let left = run(&["check", "--plan-hex", plan, &example("sop.model")]);
        left.complains(2, "two hexadecimal digits a byte are due");
    }
    run(&["check"]).complains(2, "--plan or --plan-hex is due");
    run(&["check", "--plan", "0", "--plan-hex", "00"]).complains(2, "not both");
}

/// 256 steps are tried, 257 are refused, and so is a model that is too long.
#[test]
fn sizes() {
    let designs = example("three-designs.model");
    run(&["check", "--plan-hex", &"00".repeat(256), &designs]).gives(1, "14 0 0\n");
    run(&["check", "--plan-hex", &"00".repeat(257), &designs]).gives(1, "2 0 0\n");
    run_with(&["check", "--plan", "0"], &vec![0; 65_537]).gives(1, "1 0 0\n");
    run_with(&["check", "--plan", "0"], &[]).gives(1, "4 0 0\n");
}

/// The plan checks that are stored as cases.
#[test]
fn stored_plan_checks() {
    let mut checks = 0;
    for (_, cases) in groups() {
        for case in cases {
            let Call::Check { model, plan } = &case.call else {
                continue;
            };
            let Outcome::Check(answer, cost, low) = case.call.run() else {
                unreachable!("a plan check has a plan check's outcome");
            };
            let digits: String = plan.iter().map(|step| format!("{step:02x}")).collect();
            let left = run_with(&["check", "--plan-hex", &digits], model);
            left.gives(i32::from(answer != 0), &format!("{answer} {cost} {low}\n"));
            assert_eq!(left.errors.is_empty(), answer == 0);
            checks += 1;
        }
    }
    println!("{checks} plan checks");
    assert!(checks >= 400);
}

/// Names, numbers between blanks, the printed line as it is, and what `explain` prints.
#[test]
fn plans_as_they_are_printed() {
    let designs = example("three-designs.dp");
    let line = run(&["plan", &designs]).text();
    for plan in [
        "0 1 2",
        "0,1,2",
        "0, 1, 2",
        " 0  1\t2 ",
        line.as_str(),
        ": 0 1 2",
        "load a, load b, load c",
        "load a,1,load c",
        "0 load a, 1 load b, 2 load c",
    ] {
        run(&["check", "--plan", plan, &designs]).is(0, "0 7 7\n");
    }
    let left = run(&["check", "--plan", "load a, load d", &designs]);
    left.complains(
        2,
        "`load d` is no number from 0 to 255, and no transition of ",
    );
    let left = run(&["check", "--plan", "load a", &example("three-designs.model")]);
    left.complains(2, "names are known of text models");
}

/// A refusal says which step, which condition or constraint, and the values there.
#[test]
fn refusals_explained() {
    let tour = example("tsptw.dp");
    let told = [
        ("visit p1, visit p1", "Step 2, 0 visit p1: its condition 0, p1 in todo, does not hold. The state before it: todo = {p2, p3}, at = p1, time = 5."),
        ("0 2", "Step 2, 2 visit p3: constraint 0, "),
        ("0 2", "does not hold (12 on the left, 10 on the right) after it. The state after it: todo = {p2}, at = p3, time = 9."),
        ("9", "Step 1: there is no transition 9; the model has 4, numbered from 0."),
        ("", "The target, todo = {p1, p2, p3}, at = home, time = 0, is no base state. Base case 0: its condition 0, empty(todo), does not hold."),
        ("1", "The state after the last step, todo = {p1, p3}, at = p2, time = 4, is no base state."),
        ("1 0 2 3 0", "Step 5: the state before it is a base state already, where a plan ends: todo = {}, at = home, "),
    ];
    for (plan, words) in told {
        let left = run(&["check", "--plan", plan, &tour]);
        left.gives(1, "14 0 0\n");
        assert!(left.errors.contains(words), "{plan}: {}", left.errors);
        assert!(
            left.errors.starts_with("repgypsum: not a plan. "),
            "{}",
            left.errors
        );
    }
    let negative = super::designs_with("0 3 0 2 /", "0 3 0 -2 /");
    let path = super::file("check-negative.dp", negative.as_bytes());
    let left = run(&["check", "--plan", "0 1 2", &path]);
    left.gives(1, "13 0 0\n");
    let words = "negative cost. Step 3, 2 load c: its cost, hours[at, c], is -2, which is negative. The state before it: todo = {c}, at = b.";
    assert!(left.errors.contains(words), "{}", left.errors);
    let broken = super::designs_and("constraint 3 < count(todo)");
    let path = super::file("check-broken.dp", broken.as_bytes());
    for plan in ["", "0 1 2", "9"] {
        let left = run(&["check", "--plan", plan, &path]);
        left.gives(1, "14 0 0\n");
        let words = "not a plan. The target, todo = {a, b, c}, at = none: constraint 0, 3 < count(todo), does not hold (3 on the left, 3 on the right).";
        assert!(left.errors.contains(words), "{}", left.errors);
    }
    let troubled = super::designs_and("constraint 1 / count(todo - todo) = 1");
    let path = super::file("check-troubled.dp", troubled.as_bytes());
    let left = run(&["check", "--plan", "9", &path]);
    left.gives(1, "12 0 0\n");
    let words = "constraint 0, 1 / count(todo - todo) = 1, has no value: quotient by zero.";
    assert!(left.errors.contains(words), "{}", left.errors);
    let left = run(&["check", "--plan-hex", &"00".repeat(257), &path]);
    assert!(left
        .errors
        .contains("257 steps are given; at most 256 are tested."));
}
