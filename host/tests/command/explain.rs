//! `repgypsum explain`: what is said of every verdict and every refusal.

use super::{
    beam_option, designs_and, designs_with, example, file, repository, run, run_with, EXAMPLES,
};
use repgypsum_host::cases::{groups, Call};

/// Explains a text at these settings: all of these words are said, and none points at a disagreement.
pub fn says(name: &str, text: &str, settings: &str, status: i32, words: &[&str]) {
    let path = file(&format!("explain-{name}.dp"), text.as_bytes());
    let mut arguments = vec!["explain"];
    arguments.extend(settings.split_whitespace());
    arguments.push(&path);
    let left = run(&arguments);
    assert_eq!((left.status, left.errors.as_str()), (status, ""), "{name}");
    let said = left.text();
    for word in words {
        assert!(said.contains(word), "{name}: {word}\n{said}");
    }
    assert!(!said.contains("please report"), "{name}\n{said}");
}

const UNCONDITIONAL: &str =
    "declares no bounds and no preferences, so that nothing here is conditional [nothing_declared_is_true].\n";

#[test]
fn the_three_designs() {
    let left = run(&["explain", &example("three-designs.dp")]);
    let due = [
        "Verdict 0, cheapest. A plan of 3 steps is given, at cost 7.\n",
        "The plan is a plan of the model, at cost 7, whatever the model declares [a_plan_given_is_a_plan].\n",
        "No plan of the model costs less, of whatever length [cheapest_costs_no_more].\n",
        UNCONDITIONAL,
        "  start             0              todo = {a, b, c}, at = none\n",
        "      1     2       2  0 load a    todo = {b, c}, at = a\n",
        "      2     3       5  1 load b    todo = {c}, at = b\n",
        "      3     2       7  2 load c    todo = {}, at = c\n",
        "from the independent implementation, which is tested and not proved",
        "The proved plan check, run on these 3 steps: answer 0, cost 7.\n",
        "14 expansions in 3 rounds, the last at width 4.",
    ];
    let said = left.text();
    assert_eq!((left.status, left.errors.as_str()), (0, ""));
    for words in due {
        assert!(said.contains(words), "{words}\n{said}");
    }
}

/// Without a text everything is called by its number.
#[test]
fn without_names() {
    let model = std::fs::read(example("three-designs.model")).unwrap();
    let said = run_with(&["explain"], &model).text();
    assert!(said.starts_with("Model standard input, 180 bytes, cost rule sum.\n"));
    assert!(
        said.contains("0           set 0 = {2, 3}, element 1 = 1\n"),
        "{said}"
    );
}

/// Every example: its cost, its declarations and a plan that passes again.
#[test]
fn examples() {
    for name in EXAMPLES {
        let line = std::fs::read_to_string(example(&format!("{name}.out"))).unwrap();
        let cost = line.split(' ').nth(2).unwrap();
        let text = std::fs::read_to_string(example(&format!("{name}.dp"))).unwrap();
        let declares = text.contains("\nbound") || text.contains("prefer");
        let ranges = text.contains("\n        high ");
        let condition = match (declares, ranges) {
            (true, true) => "If the model's bounds are true of the low costs and its preferences of the high ones, no plan of the model has a smaller high cost",
            (true, false) => "If the model's declarations are true, no plan of the model costs less",
            (false, _) => UNCONDITIONAL,
        };
        let low = line.split(' ').nth(8).unwrap();
        let checked = match ranges {
            true => format!("answer 0, cost {cost}, low {low}.\n  The plan passes, at both costs that the search states."),
            false => format!("answer 0, cost {cost}.\n  The plan passes, at the cost that the search states."),
        };
        says(name, &text, "", 0, &[condition, &checked]);
    }
    let text = std::fs::read_to_string(example("assembly-line.dp")).unwrap();
    let due = [
        "  2 bounds:\n",
        "    bound 0: 0 - (left - sum(minutes[todo])) / 10\n",
        "  1 preference:\n    left: more is better\n",
    ];
    says("assembly-line", &text, "", 0, &due);
}

#[test]
fn other_verdicts() {
    let designs = designs_and("");
    let none = designs_and("constraint not at = b");
    let due = [
        "Verdict 1, no plan. No plan is given.",
        "The model has no plan, of whatever length [no_plan_means_none].",
    ];
    says("no-plan", &none, "", 0, &due);
    let broken = designs_and("constraint count(todo) <= 2\nbound 3");
    let due = [
        "Verdict 1, no plan. No plan is given.",
        "The target breaks a constraint: constraint 0, count(todo) <= 2, does not hold (3 on the left, 2 on the right). The target: todo = {a, b, c}, at = none.",
        "has no plan, of whatever length and whatever the model declares [no_plan_from_broken_target];",
        "So the mark \"no plan\" rests on no declaration.",
        "0 expansions in 1 round, the last at width 1.",
    ];
    says("broken-target", &broken, "", 0, &due);
    let due = [
        "Verdict 2, width stop. A plan of 3 steps is given, at cost 7.",
        "Every plan of the model costs at least 0 [stopped_bound_below_every_plan].",
        "Cost 7 and bound 0 leave a gap of 7: the cheapest plan costs at most 7 less.",
        "a wider beam, --width 4 or more, up to 4096",
    ];
    says("width", &designs, "--width 2 --length 3", 0, &due);
    let due = [
        "Verdict 3, length stop. No plan is given.",
        "No plan was found. There may be one, at cost 5 or more.",
        "a longer limit, --length 3 or more, up to 256",
    ];
    says("length", &designs, "--width 8 --length 2", 0, &due);
    let bounded = designs_and("bound 3");
    let due = [
        "Verdict 4, budget spent. No plan is given.",
        "If the model's declarations are true, every plan of the model costs at least 3",
        "at cost 3 or more, if the declarations are true.",
        "a larger budget, --budget 1 or more, up to 4294967295",
    ];
    says("budget", &bounded, "--budget 0", 0, &due);
}

/// A false bound is named where the plan itself shows it.
#[test]
fn contradictions() {
    let due = [
        "Verdict 5, contradicted. A plan of 3 steps is given, at cost 7.",
        "Some declared bound or preference of the model is false [contradicted_only_if_false].",
        "By the declarations every plan costs at least 8; the plan given costs 7.",
        "After 0 steps bound 1, 8, is 8, and the rest of the plan costs 7.",
        "Bound 0, 1, is 1 in the base state at the end",
    ];
    says("bound", &designs_and("bound 1\nbound 8"), "", 0, &due);
    let late = designs_and("bound if at = b then 9 else 0");
    let due = "Bound 0, if at = b then 9 else 0, is 9 in the base state at the end";
    says("late-bound", &late, "", 0, &["Verdict", due]);
}

/// The theorems that are cited are on the auditor's page.
#[test]
fn theorems_are_on_the_page() {
    let page = std::fs::read_to_string(repository().join("docs/AUDIT.md")).unwrap();
    let ranges = |constraint: &str| {
        let steps = "number x = 0\ntransition go:\n    cost 2\n    high 5\n    x := x + 1\n";
        format!("cost sum\n{steps}base:\n    when x = 3\n{constraint}\nbound 6 - 2 * x\n")
    };
    let runs = [
        ("cheapest", designs_and(""), ""),
        ("no-plan", designs_and("constraint not at = b"), ""),
        ("broken", designs_and("constraint not at = none"), ""),
        ("stopped", designs_and(""), "--width=1"),
        ("contradicted", designs_and("bound 8"), ""),
        ("ranges", ranges(""), ""),
        ("no-plan-in-ranges", ranges("constraint x < 3"), ""),
        ("stopped-in-ranges", ranges(""), "--budget=0"),
    ];
    let mut cited = 0;
    for (name, text, setting) in runs {
        let path = file(&format!("theorems-{name}.dp"), text.as_bytes());
        let arguments = ["explain", &path, setting];
        let arguments = if setting.is_empty() {
            &arguments[..2]
        } else {
            &arguments
        };
        let said = run(arguments).text();
        for part in said.split('[').skip(1) {
            let theorem = part.split(']').next().unwrap();
            assert!(page.contains(&format!("`{theorem}`")), "{theorem}");
            cited += 1;
        }
    }
    assert_eq!(cited, 20 + 9);
}

/// Every stored search is explained, and the two implementations agree on all that is said.
#[test]
fn stored_searches() {
    let mut searches = 0;
    for (_, cases) in groups() {
        for case in cases {
            let Call::Search(search) = case.call else {
                continue;
            };
            let settings = [
                beam_option(&search.beam),
                format!("--length={}", search.length),
                format!("--budget={}", search.budget),
            ];
            let mut arguments = vec!["explain"];
            arguments.extend(settings.iter().map(String::as_str));
            let left = run_with(&arguments, &search.model);
            let refused = left.text().contains("\nRefused ");
            assert_eq!(
                (left.status, left.errors.as_str()),
                (i32::from(refused), "")
            );
            assert!(!left.text().contains("please report"), "{}", left.text());
            searches += 1;
        }
    }
    println!("{searches} searches");
    assert!(searches >= 150);
}

/// The start has every variable, a step those that it changes.
#[test]
fn unchanged_variables_are_not_repeated() {
    let text = designs_with(
        "element at of design = none",
        "number idle = 3\nelement at of design = none",
    );
    let path = file("explain-idle.dp", text.as_bytes());
    let said = run(&["explain", &path]).text();
    assert_eq!(said.matches("idle = 3").count(), 1, "{said}");
    assert!(
        said.contains("  0 load a    todo = {b, c}, at = a\n"),
        "{said}"
    );
}

/// A long name is no trouble, nor is a state without variables.
#[test]
fn small_models() {
    let nothing = "cost sum\nbase:\n";
    says(
        "no-variables",
        nothing,
        "",
        0,
        &["A plan of 0 steps is given", "no variables"],
    );
    let text = designs_with(
        "transition load a:",
        &format!("transition {}:", "x".repeat(300)),
    );
    says("long-name", &text, "", 0, &[&"x".repeat(300)]);
}
