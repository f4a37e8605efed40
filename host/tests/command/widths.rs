//! `--widths`: the lines, what is lent, what is said of a list, in a quotation and on the page, and of one that is refused.

use super::explain::says;
use super::json_text::{parsed, Value};
use super::{beam_option, designs_and, example, file, run, run_with};
use repgypsum_host::cases::{widths, Call};
use repgypsum_host::command;
use repgypsum_host::generate::widths::{bad, rising, WAYS};
use repgypsum_host::generate::Random;
use repgypsum_host::line::answer_line;
use std::ffi::OsString;

#[test]
fn lines_of_three_designs() {
    let designs = example("three-designs.dp");
    for (list, more, line) in [
        ("1,200", "--length=64", "0 1 7 7 3 9 2 200 7 : 0 1 2"),
        ("3", "--length=64", "0 1 7 7 3 13 2 3 7 : 0 1 2"),
        ("200", "--length=64", "0 1 7 7 3 10 1 200 7 : 0 1 2"),
        ("2", "--length=64", "2 1 7 0 3 10 2 2 7 : 0 1 2"),
        ("1,2,4", "--length=2", "2 0 0 2 0 9 3 4 0 :"),
        ("1,200", "--length=2", "3 0 0 5 0 6 2 200 0 :"),
        ("1,2,4,8,16", "--length=64", "0 1 7 7 3 14 3 4 7 : 0 1 2"),
        ("1,200", "--loading", "0 1 7 7 3 9 2 200 7 : 0 1 2"),
        ("200,300", "--profile", "0 1 7 7 3 10 1 200 7 : 0 1 2"),
    ] {
        let due = format!("{line}\n");
        run(&["plan", "--widths", list, more, &designs]).is(0, &due);
        run(&["plan", &format!("--widths={list}"), more, &designs]).is(0, &due);
    }
}

/// No list and an empty one differ; a list beside a width, and one that is not written in digits and commas, are bad usage.
#[test]
fn usage() {
    let designs = example("three-designs.model");
    run(&["plan", &designs]).is(0, "0 1 7 7 3 14 3 4 7 : 0 1 2\n");
    for empty in [&["--widths", ""][..], &["--widths="]] {
        let left = run(&[&["plan", &designs][..], empty].concat());
        left.gives(1, "refused 16\n");
        let due = "It is empty, and has to have 1 to 16 entries.";
        assert!(left.errors.contains(due), "{}", left.errors);
    }
    for command in ["plan", "explain"] {
        run(&[command, "--widths=1,2", "--width=2", &designs])
            .complains(2, "--width or --widths, not both");
        run(&[command, "--widths"]).complains(2, "a value is due behind --widths");
        run(&[command, "--widths=1", "--widths=2"]).complains(2, "--widths is given twice");
        for wrong in [
            "x", "1,", ",1", "1,,2", "1 2", "1;2", " 1", "-1", "65536", "1,½",
        ] {
            run(&[command, "--widths", wrong, &designs])
                .complains(2, "is no number from 0 to 65535");
        }
    }
    run(&["check", "--widths=1", &designs]).complains(2, "`--widths` is no option here");
}

/// The words are those of the last entry, and so is what is said to be due.
#[test]
fn lent() {
    let designs = example("three-designs.model");
    let plan = |more: &[&str], status, due: &str, said: &str| {
        let left = run(&[&["plan", "--widths=1,200", &designs], more].concat());
        left.gives(status, due);
        assert!(left.errors.contains(said), "{}", left.errors);
    };
    let line = "0 1 7 7 3 9 2 200 7 : 0 1 2\n";
    plan(&["--plan-bytes=64", "--words=25800"], 0, line, "");
    let due = "Due at these settings: 64 plan bytes and 25,800 working words.";
    plan(&["--words=25799"], 1, "refused 3\n", due);
    plan(&["--plan-bytes=63"], 1, "refused 3\n", due);
    plan(&["--loading", "--words=13600"], 0, line, "");
    let due = "Due at the length chosen, 3: 3 plan bytes and 13,600 working words.";
    plan(&["--loading", "--words=13599"], 1, "refused 3\n", due);
    plan(&["--length=0"], 1, "refused 2\n", "The length limit is 0");
    plan(&["--gap=0", "--seconds=60"], 0, line, "");
    let left = run(&["plan", "--widths=3", "--length=300", &designs]);
    left.gives(1, "refused 2\n");
    assert!(!left.errors.contains("widest beam"), "{}", left.errors);
}

/// Which entry is wrong, and why.
#[test]
fn refused() {
    let wrong = |list: &str, due: &[&str]| {
        let path = file("widths-refused.dp", designs_and("").as_bytes());
        let left = run(&["explain", "--widths", list, &path]);
        let said = left.text();
        assert_eq!((left.status, left.errors.as_str()), (1, ""));
        let always = [
            "\nRefused 16, bad widths.\n",
            "The list of widths cannot be taken:\n",
            "Nothing was searched, no lent buffer was changed",
        ];
        for words in always.iter().chain(due) {
            assert!(said.contains(words), "{words}: {said}");
        }
        let left = run(&["plan", "--widths", list, &path]);
        left.gives(1, "refused 16\n");
        assert!(left.errors.contains(due[0]), "{}", left.errors);
    };
    wrong(
        "",
        &["It is empty", "An empty list of widths, length limit 64"],
    );
    wrong(
        "0",
        &[
            "Entry 1 is 0; a width is from 1 to 4,096.",
            "\nWidths 0, length limit 64",
        ],
    );
    wrong("1,4097", &["Entry 2 is 4,097; a width is from 1 to 4,096."]);
    wrong(
        "1,200,100",
        &["Entry 3 is 100, and the one before it 200; each has to be above the one before it."],
    );
    wrong("2,2", &["Entry 2 is 2, and the one before it 2;"]);
    let seventeen: Vec<String> = (1..=17).map(|width| width.to_string()).collect();
    wrong(
        &seventeen.join(","),
        &[
            "It has 17 entries, and at most 16 can be taken.",
            "15, 16 and 1 more, length",
        ],
    );
    wrong(
        "5,0,0",
        &[
            "Entry 2 is 0;",
            "Entry 3 is 0;",
            "Entry 2 is 0, and the one before it 5;",
        ],
    );
    let many = vec!["0"; 40].join(",");
    wrong(&many, &["It has 40 entries", "more like these."]);
}

#[test]
fn explained() {
    let due = [
        "\nWidths 1, 200, length limit 64, budget 100,000 expansions.\n",
        "\nThe widths\n  Round 1 has width 1, each round after it the next entry of the list, and 200 again once that is reached.\n",
        "with its last entry as the widest beam [rising_list_guarantee].",
        "which is such a list too [built_in_is_a_list].",
        "9 expansions in 2 rounds, the last at width 200.",
    ];
    says("widths", &designs_and(""), "--widths=1,200", 0, &due);
    let due = [
        "Every round has width 2, the only entry of the list.",
        "some were cut at width 2.\n  To change: a wider beam, --widths 2,4 or more, up to 4096.",
    ];
    says("widths-stop", &designs_and(""), "--widths=2", 0, &due);
    let path = file("widths-none.dp", designs_and("").as_bytes());
    let said = run(&["explain", "--width=16", &path]).text();
    assert!(!said.contains("The widths"), "{said}");
    let broken = designs_and("constraint at != none");
    let due = [
        "Verdict 1, no plan.",
        "0 expansions in 1 round, the last at width 200.",
    ];
    says("widths-broken", &broken, "--widths=200,300", 0, &due);
    let zero = designs_and("bound 1 / 0");
    let due = ["Refused 12, quotient by zero.", "the last at width 5."];
    says("widths-zero", &zero, "--widths=5,6", 1, &due);
}

#[test]
fn documents() {
    let designs = example("three-designs.dp");
    for command in ["plan", "explain"] {
        let document =
            |more: &[&str]| parsed(&run(&[&[command, "--json", &designs], more].concat()).text());
        let listed = document(&["--widths=1,200"]);
        let settings = listed.get("settings");
        let numbers = [1, 200].map(Value::Number);
        assert_eq!(*settings.get("widths").list(), numbers);
        assert_eq!(*settings.get("width"), Value::Number(200));
        let plain = document(&[]);
        assert_eq!(*plain.get("settings").get("widths"), Value::Null);
        assert_eq!(*plain.get("settings").get("width"), Value::Number(16));
        let empty = document(&["--widths="]);
        assert_eq!(empty.get("settings").get("widths").list().len(), 0);
        assert_eq!(*empty.get("settings").get("width"), Value::Number(0));
        assert_eq!(*empty.get("answer").get("number"), Value::Number(16));
        assert_eq!(empty.get("answer").get("name").text(), "bad widths");
    }
}

/// A quotation has the list in the place of the width, and is verified and compared with it; the page has the command.
#[test]
fn quotations_and_pages() {
    let designs = example("three-designs.dp");
    let quoted = |name: &str, option: &str| {
        let quote = file(name, b"");
        std::fs::remove_file(&quote).unwrap();
        let left = run(&["plan", option, "--quote", &quote, &designs]);
        assert_eq!((left.status, left.errors.as_str()), (0, ""));
        quote
    };
    let quote = quoted("widths.quote", "--widths=1,200");
    let text = std::fs::read_to_string(&quote).unwrap();
    assert!(text.contains("\nwidths: 1,200\nlength: 64\n"), "{text}");
    assert!(!text.contains("\nwidth: "), "{text}");
    let left = run(&["verify", &quote, &designs]);
    assert!(left.status == 0 && left.text().starts_with("The same: "));
    let other = quoted("widths-other.quote", "--widths=1,2,4");
    let plain = quoted("widths-plain.quote", "--width=16");
    let told = |old: &str, new: &str| run(&["compare", old, new]).text();
    let due = "The widths were 1, 200 and are now 1, 2, 4.\n";
    assert!(told(&quote, &other).starts_with(due));
    let due = "The widths were 1, 2, 4 up to 16 and are now 1, 200.\n";
    assert!(told(&plain, &quote).starts_with(due));
    assert!(told(&quote, &quote).starts_with("Nothing changed"));
    for (new, message) in [
        (
            "widths: 1,4097",
            "6:9: expected numbers from 0 to 4096 with a comma between two",
        ),
        ("widths: 1,,2", "6:9: expected numbers from 0 to 4096"),
        ("widths: ", "6:9: expected numbers from 0 to 4096"),
    ] {
        let path = file(
            "widths-wrong.quote",
            text.replace("widths: 1,200", new).as_bytes(),
        );
        let left = run(&["verify", &path]);
        assert_eq!(left.status, 2);
        assert!(left.errors.contains(message), "{}", left.errors);
    }
    let path = file(
        "widths-fall.quote",
        text.replace("1,200", "200,1").as_bytes(),
    );
    let left = run(&["verify", &path]);
    assert_eq!(left.status, 1);
    assert!(left
        .text()
        .contains("the search: now refused 16, bad widths"));
    for (list, words) in [("1,200", "--widths 1,200"), ("", "--widths &#39;&#39;")] {
        let page = file("widths.html", b"");
        run(&["explain", "--widths", list, "--html", &page, &designs]);
        let page = std::fs::read_to_string(&page).unwrap();
        let due = format!("repgypsum plan {words} --length 64 --budget 100000 ");
        let plain = due.replace("&#39;", "'");
        assert!(page.contains(&due) || page.contains(&plain), "{due}");
    }
}

/// The stored loads, at their own lists and buffers; the stored searches with a length go with all others.
#[test]
fn stored_loads() {
    let mut loads = 0;
    for case in widths::cases() {
        let Call::Load(load) = case.call else {
            continue;
        };
        let (answer, after) = load.run();
        let words = load.words.min(400_000);
        let options = [
            beam_option(&load.beam),
            format!("--budget={}", load.budget),
            format!("--plan-bytes={}", load.buffer.len()),
            format!("--words={words}"),
        ];
        let mut arguments = vec!["plan", "--loading"];
        arguments.extend(options.iter().map(String::as_str));
        let due = format!("{}\n", answer_line(&answer, &after));
        run_with(&arguments, &load.model).gives(i32::from(answer.refused), &due);
        arguments[0] = "explain";
        let left = run_with(&arguments, &load.model);
        assert_eq!(left.status, i32::from(answer.refused));
        assert!(!left.text().contains("please report"), "{}", left.text());
        loads += 1;
    }
    println!("{loads} loads");
    assert!(loads >= 20);
}

/// Random lists: a rising one is told, a bad one has its fault told.
#[test]
fn random_lists() {
    let mut random = Random::new(0x115);
    let model = std::fs::read(example("sop.model")).unwrap();
    let explain = |list: &[u16]| {
        let list: Vec<String> = list.iter().map(u16::to_string).collect();
        let option = format!("--widths={}", list.join(","));
        let arguments = ["explain", "--length=9", "--budget=50", &option].map(OsString::from);
        let done = command::run(&arguments, &mut &model[..]).expect("an answer or a refusal");
        (done.status, String::from_utf8(done.output).unwrap())
    };
    for _ in 0..300 {
        let (status, said) = explain(&rising(&mut random));
        assert_eq!(status, 0, "{said}");
        assert!(said.contains("\nThe widths\n"), "{said}");
    }
    for way in WAYS {
        for _ in 0..20 {
            let (status, said) = explain(&bad(&mut random, way));
            assert_eq!(status, 1, "{said}");
            assert!(said.contains("\nRefused 16, bad widths.\n"), "{said}");
            assert!(said.lines().any(|line| line.starts_with("    ")), "{said}");
        }
    }
}
