//! `repgypsum plan`: the line, the fields, settings at the edges, what is lent.

use super::{beam_option, designs_with, example, file, run, run_with, EXAMPLES};
use repgypsum_host::cases::{groups, Call};
use repgypsum_host::line::answer_line;
use repgypsum_host::models::three_designs;

const P1: &str = "0 1 7 7 3 14 3 4 7 : 0 1 2\n";

#[test]
fn examples_print_their_lines() {
    for name in EXAMPLES {
        let due = std::fs::read_to_string(example(&format!("{name}.out"))).unwrap();
        let model = example(&format!("{name}.model"));
        run(&["plan", &model]).is(0, &due);
        run_with(&["plan"], &std::fs::read(&model).unwrap()).is(0, &due);
        run(&["plan", &example(&format!("{name}.dp"))]).is(0, &due);
    }
}

/// The three designs at other settings, as document 01 states them.
#[test]
fn settings() {
    let designs = example("three-designs.model");
    let plan = |settings: &str, status, due: &str| {
        let mut arguments = vec!["plan"];
        arguments.extend(settings.split_whitespace());
        arguments.push(&designs);
        let left = run(&arguments);
        left.gives(status, &format!("{due}\n"));
        // A bare refusal says which setting.
        let said = left.errors.contains("it has to be ");
        assert_eq!(said, status == 1, "{}", left.errors);
    };
    let p1 = P1.trim_end();
    plan("--width 4 --length 3", 0, p1);
    plan("--width=4 --length=3 --budget=14", 0, p1);
    plan("--width 2 --length 3", 0, "2 1 7 0 3 8 2 2 7 : 0 1 2");
    plan("--width 1 --length 3", 0, "2 1 7 0 3 6 2 1 7 : 0 1 2");
    plan("--width 8 --length 2", 0, "3 0 0 5 0 13 4 8 0 :");
    plan("--budget 0", 0, "4 0 0 0 0 0 1 1 0 :");
    plan("--width 4096 --length 256 --budget 4294967295", 0, p1);
    plan("--width 0004", 0, p1);
    plan("--width 1 --length 1", 0, "2 0 0 0 0 1 1 1 0 :");
    for settings in [
        "--width 0",
        "--width 3",
        "--width 4095",
        "--width 8192",
        "--width 2147483648",
        "--width 4294967295 --length 4294967295",
        "--length 0",
        "--length 257",
        "--length 4294967295 --plan-bytes 0 --words 0",
    ] {
        plan(settings, 1, "refused 2");
    }
}

/// Buffers of the size due, one less, and more.
#[test]
fn lent() {
    let designs = example("three-designs.model");
    let plan = |lent: &[&str], status, due: &str| {
        let settings = ["plan", "--width", "4", "--length", "3"];
        let arguments = [&settings[..], lent, &[&designs]].concat();
        let left = run(&arguments);
        left.gives(status, due);
        let said = left
            .errors
            .contains("Due at these settings: 3 plan bytes and 272 working words.");
        assert_eq!(said, status == 1, "{}", left.errors);
    };
    plan(&["--plan-bytes", "3", "--words", "272"], 0, P1);
    plan(&["--plan-bytes", "9", "--words", "16777216"], 0, P1);
    plan(&["--plan-bytes", "2"], 1, "refused 3\n");
    plan(&["--words", "271"], 1, "refused 3\n");
    plan(&["--words", "0", "--plan-bytes", "0"], 1, "refused 3\n");
}

/// The longest model is refused for what it holds, and one byte more for its length.
#[test]
fn long_models() {
    run_with(&["plan"], &vec![0; 65_536]).is(1, "refused 5\n");
    run_with(&["plan"], &vec![0; 65_537]).is(1, "refused 1\n");
    run_with(&["plan"], &vec![0; 1 << 20]).is(1, "refused 1\n");
    run(&["plan", &file("long.model", &vec![1; 70_000])]).is(1, "refused 1\n");
    run_with(&["plan"], &[]).is(1, "refused 4\n");
    let mut model = three_designs();
    model.resize(16_385, 0);
    run_with(&["plan"], &model).is(1, "refused 9\n");
}

#[test]
fn fields() {
    let designs = example("three-designs.dp");
    let due = "verdict: 0 cheapest\nplan flag: 1\ncost: 7\nbound: 7\nlength: 3\n\
        expansions: 14\nrounds: 3\nwidth: 4\nlow: 7\nplan: 0 1 2\n";
    run(&["plan", "--fields", &designs]).is(0, due);
    let due = "verdict: 3 length stop\nplan flag: 0\ncost: 0\nbound: 5\nlength: 0\n\
        expansions: 13\nrounds: 4\nwidth: 8\nlow: 0\nplan:\n";
    run(&[
        "plan", &designs, "--width", "8", "--length", "2", "--fields",
    ])
    .is(0, due);
    let due = "refused: 2 setting out of range\nplan flag: 0\ncost: 0\nbound: 0\nlength: 0\n\
        expansions: 0\nrounds: 0\nwidth: 0\nlow: 0\nplan:\n";
    let left = run(&["plan", "--fields", "--width", "3", &designs]);
    left.gives(1, due);
    assert!(left
        .errors
        .contains("The widest beam is 3; it has to be a power of two"));
}

/// At a refusal by the state the fields give the path.
#[test]
fn fields_of_a_path() {
    let text = designs_with("0 3 0 2 /", "0 3 0 -2 /");
    let path = file("negative.dp", text.as_bytes());
    run(&["plan", &path]).is(1, "refused 13\n");
    let left = run(&["plan", "--fields", &path]);
    let due = "refused: 13 negative cost\nplan flag: 0\ncost: 5\nbound: 0\nlength: 2\n\
        expansions: 3\nrounds: 1\nwidth: 1\nlow: 5\npath: 0 1\n";
    left.is(1, due);
}

/// A name that ends in .dp is a text, and every other is bytes.
#[test]
fn endings() {
    let text = std::fs::read(example("three-designs.dp")).unwrap();
    let model = std::fs::read(example("three-designs.model")).unwrap();
    run(&["plan", &file(".dp", &text)]).is(0, P1);
    let left = run(&["plan", &file("text.txt", &text)]);
    left.gives(1, "refused 5\n");
    assert!(
        left.errors.contains("The input looks like text"),
        "{}",
        left.errors
    );
    run(&["plan", &file("bytes.dp.model", &model)]).is(0, P1);
    run(&["plan", &file("bytes.dp", &model)]).complains(
        2,
        "bytes.dp: these are the bytes of a model, where its text is due",
    );
}

/// The searches that are stored as cases, at their own settings and buffers.
#[test]
fn stored_searches() {
    let mut searches = 0;
    for (_, cases) in groups() {
        for case in cases {
            let Call::Search(search) = case.call else {
                continue;
            };
            let (answer, after) = search.run();
            let words = search.words.min(400_000).to_string();
            let numbers = [search.length, search.budget].map(|n| n.to_string());
            let arguments = [
                "plan",
                &beam_option(&search.beam),
                "--length",
                &numbers[0],
                "--budget",
                &numbers[1],
                "--plan-bytes",
                &search.buffer.len().to_string(),
                "--words",
                &words,
            ];
            let due = format!("{}\n", answer_line(&answer, &after));
            run_with(&arguments, &search.model).gives(i32::from(answer.refused), &due);
            searches += 1;
        }
    }
    println!("{searches} searches");
    assert!(searches >= 150);
}
