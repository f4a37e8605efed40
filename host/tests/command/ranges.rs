//! Hours within a range: the low figure beside the cost, refusal 17, and all that is said of them.

use super::explain::says;
use super::json_text::{parsed, Value};
use super::quotations::quoted;
use super::{example, file, run, run_with};
use repgypsum_host::quotation::read;

/// The counting model, by its cost rule and its two costs: three steps from x = 0 to x = 3.
fn counting(rule: &str, low: &str, high: &str) -> String {
    format!(
        "cost {rule}\nnumber x = 0\ntransition go:\n    cost {low}\n    high {high}\n    x := x + 1\nbase:\n    when x = 3\n"
    )
}

/// Two ways to one base state with these ranges, and what is declared.
fn two_ways(first: (u8, u8), second: (u8, u8), more: &str) -> String {
    let way = |name: &str, (low, high): (u8, u8)| {
        format!("transition {name}:\n    cost {low}\n    high {high}\n    x := 1\n")
    };
    let (first, second) = (way("one", first), way("two", second));
    format!("cost sum\nnumber x = 0\n{first}{second}base:\n    when x = 1\n{more}\n")
}

fn reload_hours() -> String {
    std::fs::read_to_string(example("reload-hours.dp")).unwrap()
}

/// The lines that are stated for these models, at the program's settings.
#[test]
fn stated_lines() {
    let bound = |number: u8| format!("bound if x = 0 then {number} else 0");
    let lines = [
        (counting("sum", "2", "5"), "0 1 15 15 3 3 1 1 6 : 0 0 0"),
        (
            counting("largest", "4 - x", "5 + x"),
            "0 1 7 7 3 3 1 1 4 : 0 0 0",
        ),
        (two_ways((1, 9), (5, 6), ""), "0 1 6 6 1 1 1 1 5 : 1"),
        (two_ways((5, 9), (1, 9), ""), "0 1 9 9 1 1 1 1 5 : 0"),
        (two_ways((5, 9), (5, 8), &bound(5)), "0 1 8 8 1 1 1 1 5 : 1"),
        (two_ways((5, 9), (5, 8), &bound(8)), "0 1 8 8 1 1 1 1 5 : 1"),
        (two_ways((5, 9), (5, 8), &bound(9)), "5 1 8 9 1 1 1 1 5 : 1"),
    ];
    for (place, (text, line)) in lines.iter().enumerate() {
        let path = file(&format!("ranges-{place}.dp"), text.as_bytes());
        run(&["plan", &path]).is(0, &format!("{line}\n"));
    }
    let designs = std::fs::read_to_string(example("three-designs.dp")).unwrap();
    let mut doubled = String::new();
    for line in designs.lines() {
        doubled += &format!("{line}\n");
        if let Some(cost) = line.trim_start().strip_prefix("cost hours") {
            doubled += &format!("    high 2 * hours{cost}\n");
        }
    }
    assert_eq!(doubled.matches("high 2 * hours").count(), 3);
    let path = file("ranges-doubled.dp", doubled.as_bytes());
    run(&["plan", &path]).is(0, "0 1 14 14 3 14 3 4 7 : 0 1 2\n");
}

/// Refusals by the state with every field: the path's cost at both figures.
#[test]
fn stated_refusals() {
    let below = counting("sum", "x", "1");
    let told = [
        (
            &below,
            "refused: 17 high cost below low cost\nplan flag: 0\ncost: 2\nbound: 2\nlength: 2\nexpansions: 3\nrounds: 1\nwidth: 1\nlow: 1\npath: 0 0\n",
        ),
        (
            &counting("sum", "-1", "1 / 0"),
            "refused: 13 negative cost\nplan flag: 0\ncost: 0\nbound: 0\nlength: 0\nexpansions: 1\nrounds: 1\nwidth: 1\nlow: 0\npath:\n",
        ),
        (
            &counting("sum", "1", "2147483647 + 1"),
            "refused: 11 number out of range\nplan flag: 0\ncost: 0\nbound: 0\nlength: 0\nexpansions: 1\nrounds: 1\nwidth: 1\nlow: 0\npath:\n",
        ),
    ];
    for (place, (text, fields)) in told.into_iter().enumerate() {
        let path = file(&format!("ranges-refused-{place}.dp"), text.as_bytes());
        run(&["plan", "--fields", &path]).is(1, fields);
        let number = &fields["refused: ".len()..][..2];
        run(&["plan", &path]).is(1, &format!("refused {number}\n"));
    }
    // Before the effects, and even where the new state would break a constraint.
    let early = below.replace("x := x + 1", "x := 1 / (x - 2)") + "constraint x < 3\n";
    let path = file(
        "ranges-early.dp",
        early.replace("cost x", "cost 2").as_bytes(),
    );
    run(&["plan", &path]).is(1, "refused 17\n");
    let broken = counting("sum", "x", "1") + "constraint x < 3\n";
    let path = file("ranges-broken.dp", broken.as_bytes());
    run(&["plan", &path]).is(1, "refused 17\n");
}

/// The plan check's three numbers, and why there is no plan.
#[test]
fn checks() {
    let counted = file("ranges-check.dp", counting("sum", "2", "5").as_bytes());
    run(&["check", "--plan", "0 0 0", &counted]).is(0, "0 15 6\n");
    run(&["check", "--plan", "go, go, go", &counted]).is(0, "0 15 6\n");
    run(&["check", "--plan", "0 0", &counted]).gives(1, "14 0 0\n");
    let largest = counting("largest", "4 - x", "5 + x");
    let largest = file("ranges-check-largest.dp", largest.as_bytes());
    run(&["check", "--plan", "0 0 0", &largest]).is(0, "0 7 4\n");
    let reloads = example("reload-hours.dp");
    let other = "load npu, load gpu, load cpu, load ddr";
    run(&["check", "--plan", other, &reloads]).is(0, "0 29 11\n");

    let below = file(
        "ranges-check-below.dp",
        counting("sum", "x", "1").as_bytes(),
    );
    run(&["check", "--plan", "0 0", &below]).gives(1, "14 0 0\n");
    let left = run(&["check", "--plan", "0 0 0", &below]);
    left.gives(1, "17 0 0\n");
    let words = "high cost below low cost. Step 3, 0 go: its high cost, 1, is 1, below its low cost, x, which is 2. The state before it: x = 2.";
    assert!(left.errors.contains(words), "{}", left.errors);
    let troubled = counting("sum", "2", "5 / (1 - x)");
    let troubled = file("ranges-check-troubled.dp", troubled.as_bytes());
    let left = run(&["check", "--plan", "0 0 0", &troubled]);
    left.gives(1, "12 0 0\n");
    let words = "Step 2, 0 go: its high cost, 5 / (1 - x), has no value: quotient by zero.";
    assert!(left.errors.contains(words), "{}", left.errors);
    let document = run(&["check", "--json", "--plan", "0 0 0", &counted]).text();
    let document = parsed(&document);
    let answer = document.get("answer");
    let both = (answer.get("cost"), answer.get("low"));
    assert_eq!(both, (&Value::Number(15), &Value::Number(6)));
}

/// All orders of the four designs with their low and high hours, from the tables of the example typed in here.
fn orders() -> Vec<(u64, u64, [usize; 4])> {
    let hours = [
        [0, 6, 5, 2, 4],
        [0, 0, 2, 3, 4],
        [0, 4, 0, 4, 6],
        [0, 3, 3, 0, 3],
        [0, 5, 3, 2, 0],
    ];
    let drawer = [
        [0, 3, 6, 6, 3],
        [0, 0, 6, 6, 0],
        [0, 3, 0, 0, 3],
        [0, 3, 0, 0, 3],
        [0, 0, 6, 6, 0],
    ];
    let mut orders = Vec::new();
    for code in 0..4usize.pow(4) {
        let order: [usize; 4] =
            std::array::from_fn(|place| code / 4usize.pow(place as u32) % 4 + 1);
        if (1..=4).any(|design| !order.contains(&design)) {
            continue;
        }
        let (mut at, mut low, mut more) = (0, 0, 0);
        for design in order {
            low += hours[at][design];
            more += drawer[at][design];
            at = design;
        }
        orders.push((low + more, low, order));
    }
    orders
}

/// The example against all its orders: least at high figures, with the low figure of that order; another is less at low figures.
#[test]
fn the_example_against_all_orders() {
    let orders = orders();
    assert_eq!(orders.len(), 24);
    let (high, low, order) = orders.iter().min().unwrap();
    let least: Vec<_> = orders.iter().filter(|(other, ..)| other == high).collect();
    assert_eq!(least.len(), 1);
    let steps = order.map(|design| (design - 1).to_string()).join(" ");
    let line = format!("0 1 {high} {high} 4 41 4 8 {low} : {steps}\n");
    run(&["plan", &example("reload-hours.dp")]).is(0, &line);
    for (high, low, order) in &orders {
        let plan = order.map(|design| (design - 1).to_string()).join(" ");
        let left = run(&["check", "--plan", &plan, &example("reload-hours.model")]);
        left.is(0, &format!("0 {high} {low}\n"));
    }
    let (lowest, at_high) = orders
        .iter()
        .map(|(high, low, _)| (low, high))
        .min()
        .unwrap();
    assert!(lowest < low && at_high > high);
    let comment = format!("least: {high}, and {low} where the drawer is in order. Another order takes {lowest} then, but up to {at_high}.");
    assert!(reload_hours().contains(&comment), "{comment}");
}

/// What `explain` says of a range, and that it says no more where there is none.
#[test]
fn explained() {
    let due = [
        "A plan of 4 steps is given, at cost 22, and 13 at low figures.\n",
        "Whatever its steps really cost inside their ranges, its real cost lies between 13 and 22 [real_cost_between_the_figures]:\n",
        "at the low end where each takes its low cost [low_is_real], at the high end where each takes its high one [high_is_real].\n",
        "no plan of the model has a smaller high cost, of whatever length [cheapest_hours_least_in_ranges].\n",
        "none is above the cost of a plan from there at low\n  figures. What is proved holds as well where none is above the cost of a plan at high figures.\n",
        "   step  low  high  low so far  high so far  transition  what changes\n",
        "      1    2     8           2            8  2 load gpu  todo = {cpu, ddr, npu}, at = gpu\n",
        "      4    4     4          13           22  3 load npu  todo = {}, at = npu\n",
        "answer 0, cost 22, low 13.\n  The plan passes, at both costs that the search states.\n",
        "passes exactly if it is a plan [plan_check_exact], and with both its costs [plan_check_gives_both].\n",
    ];
    says("ranges", &reload_hours(), "", 0, &due);
    // A range in the model, and none in the plan.
    let certain = two_ways((5, 5), (1, 9), "");
    let due = [
        "A plan of 1 step is given, at cost 5.\n",
        "No plan of the model has a smaller high cost, of whatever length [cheapest_costs_no_more].\n",
        "answer 0, cost 5, low 5.\n",
    ];
    says("ranges-certain", &certain, "", 0, &due);
    let path = file("ranges-certain.dp", certain.as_bytes());
    assert!(!run(&["explain", &path]).text().contains("real cost"));
    // No range at all.
    let said = run(&["explain", &example("sop.dp")]).text();
    for words in ["figures", "real cost", "high", " low "] {
        assert!(!said.contains(words), "{words}: {said}");
    }
}

/// Stopped and contradicted runs, and no plan: which costs are meant, and which theorem.
#[test]
fn other_verdicts() {
    let reloads = reload_hours();
    let due = [
        "Verdict 2, width stop.",
        "of the high ones, every plan of the model has a high cost of at least 10 [stopped_bound_is_for_high_costs].\n",
        "Costs and bound are at high figures.\n",
    ];
    says("ranges-stopped", &reloads, "--width 1", 0, &due);
    let bare = reloads.replace("bound sum(least[todo])", "");
    let due = [
        "Every plan of the model has a high cost of at least 0 [stopped_bound_below_every_plan].\n",
    ];
    says("ranges-bare", &bare, "--width 1", 0, &due);
    let none = reloads.replace("\nbound", "\nconstraint not at = cpu\nbound");
    let due = ["of the high ones, the model has no plan, of whatever length [no_plan_means_none_in_ranges].\n"];
    says("ranges-none", &none, "", 0, &due);
    let false_bound = counting("sum", "2", "5") + "bound 6 * (3 - x)\n";
    let due = [
        "Verdict 5, contradicted. A plan of 3 steps is given, at cost 15, and 6 at low figures.\n",
        "By the declarations every plan costs at least 18; the plan given costs 15.\n  Costs and bound are at high figures.\n",
        "After 0 steps bound 0, 6 * (3 - x), is 18, and the rest of the plan costs 6 to 15.\n  So a declaration is false,",
    ];
    says("ranges-contradicted", &false_bound, "", 0, &due);
    // Above the low costs and not above the high ones: the marks hold all the same.
    let between = counting("sum", "2", "5") + "bound 4 * (3 - x)\n";
    let due = [
        "Verdict 0, cheapest.",
        "After 0 steps bound 0, 4 * (3 - x), is 12, and the rest of the plan costs 6 to 15.\n  So a bound is not true of the low costs.",
        "and this plan shows nothing against that.\n",
    ];
    says("ranges-between", &between, "", 0, &due);
}

/// Refusal 17: where, with which values, and what to do; what is advised helps.
#[test]
fn what_to_do_about_17() {
    let below = counting("sum", "x", "1");
    let due = [
        "Refused 17, high cost below low cost.\n",
        "The search met a high cost below low cost and ended there.",
        "The path to the state evaluated has 2 steps and costs 1 to 2. The bound then stood at 2.\n",
        "Met in the high cost of transition 0 go, 1.\n  Its value there is 1, and that of the low cost, x, is 2.\n",
        "To change: the two costs where they are written, or the entries of their tables; they may be equal.\n",
        "Or `high max(x, 1)`, with which both costs are the low one wherever the high one is below it.\n",
    ];
    says("ranges-17", &below, "", 1, &due);
    let advised = below.replace("high 1", "high max(x, 1)");
    let path = file("ranges-advised.dp", advised.as_bytes());
    run(&["plan", &path]).is(0, "0 1 4 4 3 3 1 1 3 : 0 0 0\n");
    let troubled = counting("sum", "2", "5 / (1 - x)");
    let due = [
        "Refused 12, quotient by zero.\n",
        "Met in the high cost of transition 0 go, 5 / (1 - x).\n",
    ];
    says("ranges-12", &troubled, "", 1, &due);
    let negative = counting("sum", "1 - x", "0 - 1");
    let due = ["Refused 17,", "Met in the high cost of transition 0 go, 0 - 1.\n  Its value there is -1, and that of the low cost, 1 - x, is 1.\n"];
    says("ranges-negative", &negative, "", 1, &due);
    let low = counting("sum", "0 - 1", "5");
    let due = [
        "Refused 13,",
        "Met in the cost of transition 0 go, 0 - 1.\n  Its value there is -1.\n",
    ];
    says("ranges-13", &low, "", 1, &due);
}

/// Bounds against the low costs, and where they are false of those, against the high ones.
#[test]
fn declarations() {
    let told = |name: &str, text: &str, status: i32, words: &[&str]| {
        let path = file(&format!("ranges-declared-{name}.dp"), text.as_bytes());
        let left = run(&["declarations", &path]);
        assert_eq!((left.status, left.errors.as_str()), (status, ""), "{name}");
        for word in words {
            assert!(left.text().contains(word), "{word}\n{}", left.text());
        }
        let document = parsed(&run(&["declarations", "--json", &path]).text());
        let bound = &document.get("bounds").list()[0];
        let words = ["truth", "at_high"].map(|name| bound.get(name).text().to_string());
        words.join(" ")
    };
    let counted = counting("sum", "2", "5");
    let sure = told(
        "sure",
        &format!("{counted}bound 2 * (3 - x)\n"),
        0,
        &["True: in every reachable state it is at most the cost of every plan from there at low figures.\n"],
    );
    assert_eq!(sure, "true true");
    let between = told(
        "between",
        &format!("{counted}bound 4 * (3 - x)\n"),
        1,
        &[
            "False: at the target, x = 0, it is 12.\n  A plan from there costs 6 at low figures, 15 at high figures: 0 go, 0 go, 0 go.\n",
            "answer 0, cost 15, low 6.\n  Of the high costs it is true: ",
        ],
    );
    assert_eq!(between, "false true");
    let above = told(
        "above",
        &format!("{counted}bound 6 * (3 - x)\n"),
        1,
        &["Of the high costs it is false too, and this model's marks say no more"],
    );
    assert_eq!(above, "false false");
    // Above the low costs in one state, above the high ones in another.
    let apart = told(
        "apart",
        &format!("{counted}bound if x = 0 then 9 else if x = 2 then 6 else 0\n"),
        1,
        &[
            "False: at the target, x = 0, it is 9.\n",
            "Of the high costs it is false too, and this model's marks say no more than that a plan given is a plan.\n  False: after 2 steps, 0 go, 0 go, in the state x = 2, it is 6.\n  A plan from there costs 2 at low figures, 5 at high figures: 0 go.\n",
        ],
    );
    assert_eq!(apart, "false false");
    let left = run(&["declarations", &example("reload-hours.dp")]);
    assert!(left
        .text()
        .contains("every plan from there at low figures.\n"));
    let plain = run(&["declarations", &example("sop.dp")]).text();
    assert!(!plain.contains("figures"), "{plain}");
    // Preferences are about high costs: the last step costs x at low figures and 9 - x at high ones, so less is no better.
    let preferred = "cost sum\nnumber x = 2 prefer less\nelement e of 3 = 0\ntransition down:\n    when 0 < x\n    when e = 0\n    cost 1\n    x := x - 1\ntransition end:\n    when e = 0\n    cost x\n    high 9 - x\n    e := 1\nbase:\n    when e = 1\n";
    let path = file("ranges-preferred.dp", preferred.as_bytes());
    let left = run(&["declarations", &path]);
    assert_eq!(left.status, 1);
    let words = "there is a plan at cost 8 at high figures: 1 end.\n";
    assert!(left.text().contains(words), "{}", left.text());
    let words = "every plan costs at least 9 at high figures.\n";
    assert!(left.text().contains(words), "{}", left.text());
}

/// Quotations keep the low figure and compare it; those of the older form have the cost in its place.
#[test]
fn quotations() {
    let path = quoted("ranges.quote", &example("reload-hours.dp"), &[]);
    let text = std::fs::read_to_string(&path).unwrap();
    assert!(text.starts_with("repgypsum quotation, form 2\n"));
    assert!(text.contains("\nline: 0 1 22 22 4 41 4 8 13 : 2 1 0 3\nmark: cheapest, a plan at cost 22, low 13, bound 22\n"));
    let left = run(&["verify", &path]);
    assert!(left.text().starts_with("The same: "), "{}", left.text());
    let wrong = text
        .replace("41 4 8 13 :", "41 4 8 12 :")
        .replace("low 13", "low 12");
    let left = run(&["verify", &file("ranges-wrong.quote", wrong.as_bytes())]);
    assert_eq!(left.status, 1);
    for words in [
        "low: 12 in the quotation, 13 now\n",
        "the plan check: answer 0, a plan, cost 22, low 13; 22 and 12 in the quotation\n",
    ] {
        assert!(left.text().contains(words), "{}", left.text());
    }
    let dearer = reload_hours().replace("    0 3 3 0 3 /\n    0 5", "    0 3 4 0 3 /\n    0 5");
    let dearer = file("ranges-dearer.dp", dearer.as_bytes());
    let later = quoted("ranges-later.quote", &dearer, &[]);
    let said = run(&["compare", &path, &later]).text();
    for words in [
        "The cost rose by 1, from 22 to 23.\n",
        "The cost at low figures rose by 1, from 13 to 14.\n",
    ] {
        assert!(said.contains(words), "{words}{said}");
    }
    // A model without ranges: the older form had no low figure, and none is told apart.
    let path = quoted("ranges-plain.quote", &example("sop.dp"), &[]);
    let text = std::fs::read_to_string(&path).unwrap();
    let older = text
        .replace("form 2", "form 1")
        .replace("0 1 6 6 4 8 2 2 6 :", "0 1 6 6 4 8 2 2 :");
    assert_ne!(older, text);
    assert_eq!(read(&older).unwrap(), read(&text).unwrap());
    let older = file("ranges-older.quote", older.as_bytes());
    let left = run(&["verify", &older]);
    assert!(left.text().starts_with("The same: "), "{}", left.text());
    let said = run(&["compare", &older, &path]).text();
    assert!(said.starts_with("Nothing changed"), "{said}");
}

/// A month has the cost at high figures, and lines of nine numbers.
#[test]
fn months() {
    let list = [
        example("reload-hours.model"),
        example("three-designs.model"),
    ]
    .join("\n");
    let lines = "0 1 22 22 4 41 4 8 13 : 2 1 0 3\n0 1 7 7 3 14 3 4 7 : 0 1 2\n";
    let closing = "2 2 0 0 0 0 0 0 29 14 1 0\n";
    let whole = format!("{lines}{closing}");
    run_with(&["monthly"], list.as_bytes()).is(0, &whole);
    run_with(&["figures"], whole.as_bytes()).is(0, closing);
    // The gap of a stopped run is between high figures: 24 and 10 at width 1.
    let stopped = run(&["plan", "--width=1", &example("reload-hours.model")]).text();
    let fields: Vec<u64> = stopped
        .split(" :")
        .next()
        .unwrap()
        .split(' ')
        .map(|word| word.parse().unwrap())
        .collect();
    assert_eq!((fields[0], fields.len()), (2, 9));
    let gap = fields[2] - fields[3];
    assert!(fields[8] < fields[2]);
    let due = format!("1 0 0 1 0 0 0 0 0 0 0 {gap}\n");
    run_with(&["figures"], stopped.as_bytes()).is(0, &due);
}

/// The chart has a bar of two colours for a range, with both costs and both sums behind it.
#[test]
fn chart_and_page() {
    let folder = std::path::Path::new(env!("CARGO_TARGET_TMPDIR")).join("command");
    let (svg, html) = (folder.join("ranges.svg"), folder.join("ranges.html"));
    let reloads = example("reload-hours.dp");
    let arguments = [
        "explain",
        "--svg",
        svg.to_str().unwrap(),
        "--html",
        html.to_str().unwrap(),
        &reloads,
    ];
    assert_eq!(run(&arguments).status, 0);
    let drawn = std::fs::read_to_string(&svg).unwrap();
    for words in [
        "reload-hours.dp: cheapest, 4 steps, cost 13 to 22</title>",
        "a bar is a step, as wide as its high cost, the dark part its low one.",
        ">2 to 8, so far 2 to 8</text>",
        ">3, so far 5 to 11</text>",
        ">4 to 7, so far 9 to 18</text>",
        ">4, so far 13 to 22</text>",
    ] {
        assert!(drawn.contains(words), "{words}: {drawn}");
    }
    let width = |rect: &str| -> f64 {
        let value = rect.split("width=\"").nth(1).unwrap();
        value.split('"').next().unwrap().parse().unwrap()
    };
    let rects = |colour: &str| -> Vec<f64> {
        let lines = drawn.lines().filter(|line| line.starts_with("<rect"));
        let lines = lines.filter(|line| line.contains(&format!("fill=\"{colour}\"")));
        lines.map(width).collect()
    };
    // The two steps with a range: light as wide as the high cost, and dark on it as wide as the low one.
    let (light, dark) = (rects("#a9c3de"), rects("#3a6ea5"));
    assert_eq!((light.len(), dark.len()), (2, 4));
    assert!((light[0] * 2.0 / 8.0 - dark[0]).abs() < 0.2);
    assert!((light[1] * 4.0 / 7.0 - dark[2]).abs() < 0.2);
    let page = std::fs::read_to_string(&html).unwrap();
    for words in [
        "<th class=\"number\">low</th><th class=\"number\">high</th><th class=\"number\">low so far</th><th class=\"number\">high so far</th>",
        "<td class=\"number\">1</td><td class=\"number\">2</td><td class=\"number\">8</td><td class=\"number\">2</td><td class=\"number\">8</td>",
        "href=\"#real_cost_between_the_figures\"",
        "<tr id=\"cheapest_hours_least_in_ranges\">",
        "at cost 22, and 13 at low figures.",
    ] {
        assert!(page.contains(words), "{words}");
    }
}

/// What is allowed and seldom meant: a high cost that is written as the cost is.
#[test]
fn warned() {
    let alike =
        two_ways((5, 9), (1, 9), "").replace("cost 1\n    high 9", "cost x + 9\n    high x + 9");
    let due = [
        "Worth a look\n  The high cost is written as the cost is, and could be left out: 1 two.\n",
    ];
    says("ranges-alike", &alike, "", 0, &due);
    let said = run(&["explain", &example("reload-hours.dp")]).text();
    assert!(!said.contains("Worth a look"), "{said}");
}
