//! The chart: well formed, a bar for each step as wide as its cost, labels that do not overlap.

use super::markup::{parsed, Element};
use super::{designs_and, designs_with, example, file, run};

/// The boxes of all texts, left, right and base line, at 7.25 pixels a character.
fn boxes(elements: &[Element]) -> Vec<(f64, f64, f64)> {
    let texts = elements.iter().filter(|element| element.tag == "text");
    let place = |element: &Element| {
        let wide = element.text.chars().count() as f64 * 7.25;
        let x = element.number("x");
        let left = match element.attributes["text-anchor"].as_str() {
            "start" => x,
            "middle" => x - wide / 2.0,
            _ => x - wide,
        };
        (left, left + wide, element.number("y"))
    };
    texts.map(place).collect()
}

/// Draws the plan of a text, and looks at the chart: the costs due, in this order.
fn draws(name: &str, text: &str, setting: &str, largest: bool, costs: &[f64]) {
    let path = file(&format!("chart-{name}.dp"), text.as_bytes());
    let svg = file(&format!("chart-{name}.svg"), b"");
    let left = run(&["explain", setting, "--svg", &svg, &path]);
    assert_eq!((left.status, left.errors.as_str()), (0, ""));
    assert!(left
        .text()
        .contains(&format!("The plan is drawn in {svg}.")));
    let elements = parsed("svg", &std::fs::read_to_string(svg).unwrap());
    bars_are_costs(&elements, largest, costs);
    texts_are_apart(name, &elements);
}

/// Every text lies inside the chart, and none over another.
fn texts_are_apart(name: &str, elements: &[Element]) {
    let (wide, high) = (elements[0].number("width"), elements[0].number("height"));
    let boxes = boxes(elements);
    for (place, first) in boxes.iter().enumerate() {
        assert!(
            first.0 >= 0.0 && first.1 <= wide && first.2 > 10.0 && first.2 < high,
            "{name} {first:?}"
        );
        for second in &boxes[..place] {
            let apart =
                first.1 < second.0 || second.1 < first.0 || (first.2 - second.2).abs() >= 15.0;
            assert!(apart, "{name}: {first:?} {second:?}");
        }
    }
}

/// One bar a step, its width the step's cost on one scale, a thin mark for cost 0.
fn bars_are_costs(elements: &[Element], largest: bool, costs: &[f64]) {
    let bars: Vec<&Element> = elements
        .iter()
        .filter(|element| element.tag == "rect" && element.attributes.contains_key("x"))
        .collect();
    assert_eq!(bars.len(), costs.len());
    let total: f64 = if largest {
        costs.iter().copied().fold(0.0, f64::max)
    } else {
        costs.iter().sum()
    };
    let scale = 680.0 / total.max(1.0);
    let start = bars.first().map_or(0.0, |bar| bar.number("x"));
    let mut before = 0.0;
    for (bar, cost) in bars.iter().zip(costs) {
        let wide = (cost * scale).max(2.0);
        assert!((bar.number("width") - wide).abs() < 0.2);
        let from = if largest { 0.0 } else { before * scale };
        assert!((bar.number("x") - start - from).abs() < 0.2);
        before += cost;
    }
}

#[test]
fn examples() {
    let read = |name: &str| std::fs::read_to_string(example(&format!("{name}.dp"))).unwrap();
    draws(
        "three-designs",
        &read("three-designs"),
        "--width=16",
        false,
        &[2.0, 3.0, 2.0],
    );
    draws(
        "tsptw",
        &read("tsptw"),
        "--width=16",
        false,
        &[4.0, 3.0, 4.0, 3.0],
    );
    let stations = [1.0, 0.0, 0.0, 1.0, 0.0, 0.0, 0.0, 1.0, 0.0];
    draws(
        "assembly-line",
        &read("assembly-line"),
        "--width=16",
        false,
        &stations,
    );
    draws(
        "open-stacks",
        &read("open-stacks"),
        "--width=16",
        true,
        &[2.0, 3.0, 3.0, 2.0, 1.0],
    );
}

/// A chain of steps with these costs.
fn chain(rule: &str, costs: &[u64]) -> String {
    let mut text = format!("cost {rule}\nnumber n = 0\n");
    for (place, cost) in costs.iter().enumerate() {
        let name = "with_a_long_name".repeat(place % 4);
        text += &format!(
            "transition step{name} {place}:\n when n = {place}\n cost {cost}\n n := n + 1\n"
        );
    }
    text + &format!("base:\n when n = {}\n", costs.len())
}

#[test]
fn long_plans() {
    let small: Vec<u64> = (0..60).map(|place| place * 7 % 13).collect();
    let large: Vec<u64> = (0..60)
        .map(|place| place * 1_000_003 % 2_000_000_011)
        .collect();
    let zeros = vec![0; 60];
    let longest: Vec<u64> = (0..250).map(|place| place % 3 * 715_827_882).collect();
    for (name, costs) in [
        ("small", small),
        ("large", large),
        ("zeros", zeros),
        ("longest", longest),
    ] {
        let due: Vec<f64> = costs.iter().map(|cost| *cost as f64).collect();
        draws(name, &chain("sum", &costs), "--length=256", false, &due);
        let largest = format!("largest-{name}");
        draws(
            &largest,
            &chain("largest", &costs),
            "--length=256",
            true,
            &due,
        );
    }
}

#[test]
fn empty_plans() {
    let text = designs_with("= {a, b, c}", "= {}");
    draws("empty", &text, "--width=16", false, &[]);
}

/// Without a plan nothing is written, and the answer is explained all the same.
#[test]
fn nothing_to_draw() {
    let text = designs_and("constraint not at = b");
    let path = file("chart-none.dp", text.as_bytes());
    let svg = path.replace(".dp", ".svg");
    for setting in ["--width=16", "--budget=0", "--width=3"] {
        let left = run(&["explain", setting, "--svg", &svg, &path]);
        assert_eq!(left.status, i32::from(setting == "--width=3"));
        assert!(left.text().contains("No plan is given, so none is drawn."));
        assert!(!std::path::Path::new(&svg).exists());
    }
}

/// Signs that XML keeps for itself, in the name of a file.
#[test]
fn escapes() {
    let text = std::fs::read_to_string(example("sop.dp")).unwrap();
    let path = file("a<b>&\"c\"\u{7}.dp", text.as_bytes());
    let svg = file("escapes.svg", b"");
    assert_eq!(run(&["explain", "--svg", &svg, &path]).status, 0);
    let elements = parsed("svg", &std::fs::read_to_string(svg).unwrap());
    let title = elements
        .iter()
        .find(|element| element.tag == "title")
        .unwrap();
    assert!(
        title.text.contains("a<b>&\"c\"\u{FFFD}.dp: cheapest"),
        "{}",
        title.text
    );
}

/// The chart of a text with these options, its texts apart.
fn view(name: &str, text: &str, options: &[&str]) -> Vec<Element> {
    let path = file(&format!("view-{name}.dp"), text.as_bytes());
    let svg = file(&format!("view-{name}.svg"), b"");
    let mut arguments = vec!["explain", "--svg", &svg];
    arguments.extend(options);
    arguments.push(&path);
    let left = run(&arguments);
    assert_eq!((left.status, left.errors.as_str()), (0, ""), "{name}");
    let elements = parsed("svg", &std::fs::read_to_string(svg).unwrap());
    texts_are_apart(name, &elements);
    elements
}

/// Left, top, width and height of the lanes or of the bars.
fn boxes_of(elements: &[Element], lanes: bool) -> Vec<[f64; 4]> {
    let drawn = elements.iter().filter(|element| {
        let class = element.attributes.contains_key("class");
        element.tag == "rect" && element.attributes.contains_key("x") && class == lanes
    });
    let sides = |element: &Element| ["x", "y", "width", "height"].map(|name| element.number(name));
    drawn.map(sides).collect()
}

/// Bars that do not overlap, each in its lane by the numbers of the lanes.
fn in_lanes(elements: &[Element], due: &[usize]) {
    let (lanes, bars) = (boxes_of(elements, true), boxes_of(elements, false));
    assert_eq!(bars.len(), due.len());
    for (place, (bar, lane)) in bars.iter().zip(due).enumerate() {
        let lane = lanes[*lane];
        let inside = lane[1] <= bar[1] && bar[1] + bar[3] <= lane[1] + lane[3];
        assert!(inside, "bar {place}: {bar:?} in {lane:?}");
        for other in &bars[..place] {
            let beside = bar[0] + 0.15 >= other[0] + other[2] || other[0] + 0.15 >= bar[0] + bar[2];
            assert!(beside || bar[1] != other[1], "{bar:?} {other:?}");
        }
    }
    for (one, next) in lanes.iter().zip(lanes.iter().skip(1)) {
        assert!(
            (one[1] + one[3] - next[1]).abs() < 0.2,
            "lanes follow one another"
        );
    }
}

/// A tour: lanes are places in their order, and a bar begins where the clock stood and ends where it stands.
#[test]
fn lanes_and_a_clock() {
    let text = std::fs::read_to_string(example("tsptw.dp")).unwrap();
    let plain = view("plain", &text, &[]);
    assert!(boxes_of(&plain, true).is_empty());
    let both = view("both", &text, &["--lane=at", "--clock=time"]);
    // The plan visits p2, p3, p1 and returns home, with the clock at 4, 8, 12 and 15. Lanes are home, p1, p2, p3.
    in_lanes(&both, &[0, 1, 2, 3]);
    let scale = 680.0 / 15.0;
    let bars = boxes_of(&both, false);
    let due = [(12.0, 15.0), (8.0, 12.0), (0.0, 4.0), (4.0, 8.0)];
    for (bar, (from, to)) in bars.iter().zip(due) {
        assert!((bar[0] - bars[2][0] - from * scale).abs() < 0.2);
        assert!((bar[2] - (to - from) * scale).abs() < 0.2);
    }
    let says = |elements: &[Element], words: &str| {
        elements
            .iter()
            .any(|element| element.tag == "text" && element.text.contains(words))
    };
    assert!(says(
        &both,
        "The line is time at the end. A lane is a value of at."
    ));
    let lanes = view("lanes", &text, &["--lane", "at"]);
    assert!(says(&lanes, "Cost from the start"));
    in_lanes(&lanes, &[0, 1, 2, 3]);
}

/// Long names, steps that take nothing, clocks that go back or below 0, and many steps in one lane.
#[test]
fn crowded_lanes() {
    let costs: Vec<u64> = (0..60).map(|place| place * 7 % 5).collect();
    for rule in ["sum", "largest"] {
        let text = chain(rule, &costs);
        let one_lane = text.replace("number n = 0", "number n = 0\nelement at of 2 = 0");
        in_lanes(
            &view(&format!("crowd-{rule}"), &one_lane, &["--lane=at"]),
            &[0; 60],
        );
        let own: Vec<usize> = (0..60).collect();
        in_lanes(
            &view(&format!("own-{rule}"), &text, &["--lane=n", "--clock=n"]),
            &own,
        );
    }
    let back = "cost sum\nnumber t = 5\nelement at of 3 = 0\n\
        transition one:\n when at = 0\n cost 1\n t := -40\n at := 1\n\
        transition two:\n when at = 1\n cost 1\n t := 1000000\n at := 2\nbase:\n when at = 2\n";
    in_lanes(&view("back", back, &["--lane=at", "--clock=t"]), &[0, 1]);
    assert_eq!(
        boxes_of(&view("back-rows", back, &["--clock=t"]), false).len(),
        2
    );
    let nothing = designs_with("= {a, b, c}", "= {}");
    assert!(boxes_of(&view("nothing", &nothing, &["--lane=at"]), false).is_empty());
}

#[test]
fn views_that_cannot_be() {
    let designs = example("three-designs.dp");
    let svg = file("view-wrong.svg", b"");
    let complains = |options: &[&str], words: &str| {
        let mut arguments = vec!["explain"];
        arguments.extend(options);
        arguments.push(&designs);
        run(&arguments).complains(2, words);
    };
    complains(
        &["--svg", &svg, "--lane=where"],
        "--lane: the model has no variable `where`; it has todo, at",
    );
    complains(
        &["--svg", &svg, "--clock=at"],
        "--clock: `at` is no number, and a clock is one",
    );
    complains(
        &["--lane=at"],
        "--lane is for a chart: --svg or --html is due",
    );
    complains(&["--clock=at"], "--clock is for a chart");
    // Of a model that is refused no variable is known.
    let cut = file("view-cut.model", &[1, 0]);
    assert_eq!(
        run(&["explain", "--svg", &svg, "--lane=at", &cut]).status,
        1
    );
}
