//! `repgypsum declarations`, `plan --unconditional`, and what `explain` sees in the states of a plan.

use super::{designs_and, designs_with, example, file, run, run_with, EXAMPLES};

/// Five designs with a bound that is false and not contradicted: marked cheapest at 18, where 16 exists.
const EIGHTEEN: &str = "cost sum
objects design = none a b c d
set todo of design = {a..d}
element at of design = none
table hours[design, design] = 0 1 9 5 2 / 0 0 5 9 9 / 0 6 0 5 6 / 0 3 7 0 7 / 0 9 6 8 0
for x in design - none:
    transition load x:
        when x in todo
        cost hours[at, x]
        todo := todo - x
        at := x
base:
    when empty(todo)
bound if empty(todo) then 0 else count(todo) + 8
";

#[test]
fn a_false_bound_behind_the_mark_cheapest() {
    let path = file("eighteen.dp", EIGHTEEN.as_bytes());
    let left = run(&["plan", &path]);
    assert!(left.text().starts_with("0 1 18 18 4 "), "{}", left.text());
    let said = run(&["explain", &path]).text();
    assert!(said.contains("\nThe bounds along the plan\n"), "{said}");
    assert!(
        said.contains("bound 0, if empty(todo) then 0 else count(todo) + 8, is "),
        "{said}"
    );
    assert!(said.contains("So a declaration is false"), "{said}");
    let left = run(&["declarations", &path]);
    assert_eq!((left.status, left.errors.as_str()), (1, ""));
    let said = left.text();
    assert!(
        said.contains("All that allowed steps reach were enumerated: "),
        "{said}"
    );
    assert!(said.contains("\n  False: after 2 steps, "), "{said}");
    assert!(
        said.contains("model started there: answer 0, cost "),
        "{said}"
    );
    let left = run(&["plan", "--unconditional", &path]);
    assert_eq!(left.status, 0);
    let lines: Vec<String> = left.text().lines().map(str::to_string).collect();
    assert_eq!(lines.len(), 3);
    assert!(lines[1].starts_with("without bounds and preferences: 0 1 16 16 4 "));
    assert!(lines[2]
        .starts_with("A declaration is false: the cheapest plan costs 16, on no declaration; "));
    let sampled = run(&["declarations", "--states", "30", "--walks", "40", &path]).text();
    assert!(
        sampled.contains("More than 30 are reachable. A sample of "),
        "{sampled}"
    );
    assert!(sampled.contains("\n  False: "), "{sampled}");
}

/// More time is declared better where it is worse: the enumeration and a sample both show it.
#[test]
fn a_false_preference() {
    let mut text = std::fs::read_to_string(example("tsptw-20/tour.dp")).unwrap();
    for name in ["steps.dp", "travel.csv", "places.csv"] {
        text = text.replace(name, &example(&format!("tsptw-20/{name}")));
    }
    let path = file(
        "late.dp",
        text.replace("prefer less", "prefer more").as_bytes(),
    );
    for (states, by) in [
        ("50000", "is from the enumeration."),
        ("3000", "without declarations."),
    ] {
        let left = run(&["declarations", "--states", states, &path]);
        let said = left.text();
        assert_eq!(left.status, 1, "{said}");
        assert!(
            said.contains("Preferences, time: more is better\n  False: after "),
            "{said}"
        );
        assert!(said.contains("Better by the preferences, after "), "{said}");
        assert!(
            said.contains("model started there: answer 0, cost "),
            "{said}"
        );
        assert!(said.ends_with(&format!("{by}\n")), "{said}");
    }
}

#[test]
fn a_bound_above_0_in_a_base_state() {
    let path = file("base-bound.dp", designs_and("bound 1").as_bytes());
    let said = run(&["explain", &path]).text();
    let due = "Bound 0, 1, is 1 in the base state at the end, from where nothing is left to pay.";
    assert!(said.contains(due), "{said}");
    assert!(said.contains("\nVerdict 0, cheapest."), "{said}");
}

#[test]
fn the_mark_rests_on_no_declaration() {
    let theorem = "[nothing_declared_is_true]";
    let designs = example("three-designs.dp");
    let left = run(&["plan", "--unconditional", &designs]);
    let due = format!("0 1 7 7 3 14 3 4 7 : 0 1 2\nThe model declares no bounds and no preferences: the mark rests on no declaration {theorem}.\n");
    left.is(0, &due);
    let left = run(&["plan", "--unconditional", &example("tsptw.dp")]);
    assert!(
        left.text()
            .contains("\nThe mark \"cheapest\" rests on no declaration: "),
        "{}",
        left.text()
    );
    assert!(
        left.text().contains(theorem) && left.text().contains("plans do not mention declarations")
    );
    let tour = example("tsptw-20/tour.dp");
    let left = run(&["plan", "--unconditional", "--width", "256", &tour]);
    assert!(left.text().contains(
        "\nThe mark rests on the declarations: without them the run ends with width stop."
    ));
    let none = designs_with("when empty(todo)", "when 1 = 2");
    let path = file("no-plan.dp", (none + "bound 0\n").as_bytes());
    let left = run(&["plan", "--unconditional", &path]);
    assert!(
        left.text()
            .contains("The mark \"no plan\" rests on no declaration"),
        "{}",
        left.text()
    );
    run_with(&["plan", "--unconditional"], &[1, 0]).is(1, "refused 4\n");
}

#[test]
fn true_declarations_of_the_examples() {
    for name in EXAMPLES {
        for ending in ["dp", "model"] {
            let left = run(&["declarations", &example(&format!("{name}.{ending}"))]);
            assert_eq!((left.status, left.errors.as_str()), (0, ""), "{name}");
            assert!(!left.text().contains("False"), "{}", left.text());
            assert!(!left.text().contains("Open"), "{}", left.text());
            assert!(!left.text().contains("Worth a look"), "{}", left.text());
            let said = run(&["explain", &example(&format!("{name}.{ending}"))]).text();
            assert!(!said.contains("So a declaration is false"), "{said}");
            let bounds = left.text().contains("\nBound 0, ");
            assert_eq!(said.contains("is a bound above the cost"), bounds, "{said}");
        }
    }
}

#[test]
fn warnings() {
    let no_base = designs_with("base:\n    when empty(todo)\n", "");
    let path = file("no-base.dp", no_base.as_bytes());
    for command in ["declarations", "explain"] {
        assert!(run(&[command, &path])
            .text()
            .contains("There is no base case: "));
    }
    let more = "base:\n    when empty(todo)\n";
    let never = designs_with(
        more,
        &format!("transition idle:\n    when none in todo\n    cost 0\n\n{more}"),
    );
    let path = file("never.dp", never.as_bytes());
    let said = run(&["declarations", &path]).text();
    assert!(
        said.contains("Allowed in none of the 13 states: 3 idle."),
        "{said}"
    );
}

/// A target that breaks a constraint, and one whose constraint has no value: there is no plan, and declarations are looked at.
#[test]
fn targets_outside_the_constraints() {
    let broken = designs_and("constraint at = at\nconstraint not at = none\nbound 8");
    let path = file("broken.dp", broken.as_bytes());
    let left = run(&["declarations", &path]);
    assert_eq!(left.status, 1, "{}", left.text());
    for due in [
        "It breaks a constraint: constraint 1, not at = none, does not hold. The target: todo = {a, b, c}, at = none.",
        "the mark \"no plan\" rests on no declaration [no_plan_from_broken_target].",
        "False: at the target, todo = {a, b, c}, at = none, it is 8.",
        "The plan check does not confirm it",
    ] {
        assert!(left.text().contains(due), "{due}\n{}", left.text());
    }
    let said = run(&["plan", "--unconditional", &path]).text();
    let due = "1 0 0 0 0 0 1 1 0 :\nThe mark \"no plan\" rests on no declaration: the target breaks constraint 1 [no_plan_from_broken_target].\n";
    assert_eq!(said, due);
    let troubled = designs_and("constraint 1 / count(todo - todo) = 1\nbound 1");
    let path = file("troubled.dp", troubled.as_bytes());
    let said = run(&["declarations", &path]).text();
    for due in [
        "It has no plan: constraint 0, 1 / count(todo - todo) = 1, has no value: quotient by zero. The target: ",
        "The search and the plan check refuse the model with 12, quotient by zero.",
    ] {
        assert!(said.contains(due), "{due}\n{said}");
    }
}

#[test]
fn wrong_use() {
    run(&["declarations", "--states", "x", &example("sop.dp")]).complains(2, "is no number");
    run(&["declarations", "no/such.dp"]).complains(2, "cannot be read");
    let left = run_with(&["declarations"], &[1, 0, 7]);
    assert_eq!((left.status, left.text().as_str()), (1, "refused 4\n"));
    assert!(left.errors.contains("bytes end early"));
}
