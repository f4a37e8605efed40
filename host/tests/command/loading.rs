//! `--loading`: the lines, the length that is chosen, what is said of models inside and outside the loading profile.

use super::explain::says;
use super::json_text::{parsed, Value};
use super::{designs_and, designs_with, example, file, run, run_with, EXAMPLES};
use repgypsum_host::cases::{loads, Call};
use repgypsum_host::command;
use repgypsum_host::generate::loading::{inside, outside, Way, WAYS};
use repgypsum_host::generate::Random;
use repgypsum_host::line::answer_line;
use std::ffi::OsString;

const P1: &str = "0 1 7 7 3 14 3 4 7 : 0 1 2\n";

/// The examples that are pure loading orders.
const LOADING: [&str; 5] = [
    "loading-order",
    "open-stacks",
    "reload-hours",
    "sop",
    "three-designs",
];

/// Inside, the line is the stored one: the length that is chosen is never reached by an unfinished state.
#[test]
fn lines_of_the_examples() {
    for name in EXAMPLES {
        let line = std::fs::read_to_string(example(&format!("{name}.out"))).unwrap();
        for flag in ["--loading", "--profile"] {
            let left = run(&["plan", flag, &example(&format!("{name}.dp"))]);
            if LOADING.contains(&name) {
                left.is(0, &line);
            } else {
                left.gives(1, "refused 15\n");
                assert!(
                    left.errors.contains("outside the loading profile"),
                    "{}",
                    left.errors
                );
            }
        }
    }
}

/// With `--length` it is bad usage; what is lent and the width are as ever.
#[test]
fn settings() {
    let designs = example("three-designs.model");
    for flag in ["--loading", "--profile"] {
        for command in ["plan", "explain"] {
            run(&[command, flag, "--length=3", &designs])
                .complains(2, &format!("{flag} chooses the length itself"));
        }
    }
    run(&["plan", "--loading=1", &designs]).complains(2, "--loading takes no value");
    run(&["check", "--loading", &designs]).complains(2, "`--loading` is no option here");
    let plan = |more: &[&str], status, due: &str, said: &str| {
        let left = run(&[&["plan", "--loading", &designs], more].concat());
        left.gives(status, due);
        assert!(left.errors.contains(said), "{}", left.errors);
    };
    plan(&["--plan-bytes=3", "--words=1088"], 0, P1, "");
    let due = "Due at the length chosen, 3: 3 plan bytes and 1,088 working words.";
    plan(&["--words=1087"], 1, "refused 3\n", due);
    plan(&["--plan-bytes=2"], 1, "refused 3\n", due);
    plan(&["--width=3"], 1, "refused 2\n", "The widest beam is 3");
    plan(&["--width=1"], 0, "2 1 7 0 3 6 2 1 7 : 0 1 2\n", "");
    plan(&["--budget=0"], 0, "4 0 0 0 0 0 1 1 0 :\n", "");
    plan(&["--gap=0", "--seconds=60"], 0, P1, "");
    let none = file(
        "loading-none.dp",
        designs_with("{a, b, c}", "{}").as_bytes(),
    );
    run(&["plan", "--loading", &none]).is(0, "0 1 0 0 0 0 1 1 0 :\n");
    let left = run(&["plan", "--loading", "--words=0", &none]);
    left.gives(1, "refused 3\n");
    assert!(left.errors.contains("1 plan byte and 1,056 working words"));
}

#[test]
fn fields() {
    let due = "verdict: 0 cheapest\nplan flag: 1\ncost: 7\nbound: 7\nlength: 3\n\
        expansions: 14\nrounds: 3\nwidth: 4\nlow: 7\nlength chosen: 3\nplan: 0 1 2\n";
    let designs = example("three-designs.dp");
    run(&["plan", "--loading", "--fields", &designs]).is(0, due);
    let left = run(&["plan", "--loading", "--fields", &example("tsptw.dp")]);
    left.gives(
        1,
        "refused: 15 outside the loading profile\nplan flag: 0\ncost: 0\nbound: 0\nlength: 0\n\
         expansions: 0\nrounds: 0\nwidth: 0\nlow: 0\nplan:\n",
    );
}

#[test]
fn documents() {
    let document = |command: &str, name: &str| {
        let model = example(&format!("{name}.dp"));
        parsed(&run(&[command, "--json", "--loading", &model]).text())
    };
    for command in ["plan", "explain"] {
        let inside = document(command, "three-designs");
        assert_eq!(*inside.get("settings").get("loading"), Value::Truth(true));
        assert_eq!(*inside.get("settings").get("length"), Value::Number(3));
        let outside = document(command, "tsptw");
        assert_eq!(*outside.get("settings").get("length"), Value::Number(0));
        assert_eq!(*outside.get("answer").get("number"), Value::Number(15));
    }
    let said = document("plan", "tsptw");
    let due = "Transition 3 return has no effect on todo. The base case has 2 conditions";
    assert!(said.get("note").text().contains(due));
    let profile = |name| document("explain", name).get("profile").clone();
    assert_eq!(*profile("sop").get("inside"), Value::Truth(true));
    assert_eq!(*profile("sop").get("length"), Value::Number(4));
    assert_eq!(profile("sop").get("outside").list().len(), 0);
    assert_eq!(*profile("tsptw").get("inside"), Value::Truth(false));
    assert_eq!(*profile("tsptw").get("length"), Value::Null);
    assert_eq!(profile("tsptw").get("outside").list().len(), 2);
}

const NO_STOP: &str = "at whatever width and budget [no_length_stop_in_profile].";

#[test]
fn explained_inside() {
    let due = [
        "length limit 3, which the loading profile chooses, budget",
        "The length limit was chosen by that: 3 steps, as many as todo has members at the start.",
        NO_STOP,
    ];
    says("loading", &designs_and(""), "--loading", 0, &due);
    let due = [
        "length limit 64, budget",
        "With --loading the length limit is chosen by that: 3 steps, as many as",
        NO_STOP,
    ];
    says("not-loading", &designs_and(""), "", 0, &due);
    let none = designs_with("{a, b, c}", "{}");
    let due = "1 step, since todo has no members at the start";
    says("loading-none", &none, "--loading", 0, &[due]);
    let due = [
        "Verdict 2, width stop.",
        "some were cut at width 1.\n  To change: a wider beam",
    ];
    says(
        "loading-stop",
        &designs_and(""),
        "--loading --width=1",
        0,
        &due,
    );
    let path = file("loading-stop.dp", designs_and("").as_bytes());
    let said = run(&["explain", "--loading", "--width=1", &path]).text();
    assert!(!said.contains("the length limit may stop"), "{said}");
}

/// What keeps a text outside, by `explain` with the profile and without it.
#[test]
fn explained_outside() {
    let outside = |name: &str, text: &str, why: &str| {
        let not_in_it = "The loading profile\n  The model is not in it:\n";
        let given = "So a length limit has to be given, and a run may end in a length stop.";
        says(name, text, "", 0, &[not_in_it, why, given]);
        let refused = [
            "no length limit chosen, budget",
            "Refused 15, outside the loading profile.",
            "which takes pure loading orders alone:\n",
            why,
            "Without --loading, and with a length limit, it can be searched.",
        ];
        says(name, text, "--loading", 1, &refused);
    };
    let joined = designs_with("when b in todo", "when b in todo and at != b");
    let due = "Transition 1 load b removes b from todo, and none of its conditions is, by itself, b in todo.";
    outside("joined", &joined, due);
    let other = designs_with("todo := todo - c", "todo := todo - {c}");
    let due = "Transition 2 load c has an effect on todo that does more, or something else, than to remove one named object.";
    outside("other", &other, due);
    let wait = designs_with("base:", "transition wait:\n    cost 1\n\nbase:");
    let due = "Transition 3 wait has no effect on todo.";
    outside("wait", &wait, due);
    let twice = designs_and("\nbase:\n    when at = c");
    outside("twice", &twice, "There are 2 base cases, and one is due.");
    let more = designs_with("when empty(todo)", "when empty(todo)\n    when at = c");
    let due = "The base case has 2 conditions, and one alone is due: todo is empty.";
    outside("more", &more, due);
    let counted = designs_with("when empty(todo)", "when count(todo) = 0");
    let due = "The base case's condition is another than that todo is empty.";
    outside("counted", &counted, due);
    let any = designs_with("    when empty(todo)", "");
    outside(
        "any",
        &any,
        "The base case has no condition, and one is due",
    );
    let none = designs_with("base:\n    when empty(todo)", "");
    outside("none", &none, "There is no base case, and one is due.");
    let late = designs_with("set todo", "number spent = 0\nset todo");
    outside("late", &late, "Variable 0, spent, is no set.");
    let nothing = "cost sum\nbase:\n";
    outside(
        "nothing",
        nothing,
        "There is no variable, and variable 0 has to be a set.",
    );
}

/// A quotation has the length that was chosen, and the page the command with `--loading`.
#[test]
fn quotations_and_pages() {
    let designs = example("loading-order.dp");
    let quote = file("loading.quote", b"");
    std::fs::remove_file(&quote).unwrap();
    let line = std::fs::read_to_string(example("loading-order.out")).unwrap();
    run(&["plan", "--loading", "--quote", &quote, &designs]).is(0, &line);
    let text = std::fs::read_to_string(&quote).unwrap();
    assert!(text.contains("\nlength: 6\n"), "{text}");
    let left = run(&["verify", &quote, &designs]);
    assert!(left.status == 0 && left.text().starts_with("The same: "));
    let page = file("loading.html", b"");
    let left = run(&["explain", "--loading", "--html", &page, &designs]);
    assert_eq!((left.status, left.errors.as_str()), (0, ""));
    let page = std::fs::read_to_string(&page).unwrap();
    for words in [
        "repgypsum plan --width 16 --loading --budget 100000 ",
        "<h3>The loading profile</h3>",
        "<a class=\"theorem\" href=\"#no_length_stop_in_profile\">",
        "\nlength: 6\n",
    ] {
        assert!(page.contains(words), "{words}");
    }
}

/// The stored loads, at their own settings and buffers.
#[test]
fn stored_loads() {
    let mut searches = 0;
    for case in loads::cases() {
        let Call::Load(load) = case.call else {
            panic!("a load");
        };
        let (answer, after) = load.run();
        let numbers = [
            load.beam.widest(),
            load.budget,
            load.buffer.len() as u64,
            load.words,
        ];
        let names = ["--width", "--budget", "--plan-bytes", "--words"];
        let options = names.iter().zip(numbers);
        let options: Vec<String> = options.map(|(name, n)| format!("{name}={n}")).collect();
        let mut arguments = vec!["plan", "--loading"];
        arguments.extend(options.iter().map(String::as_str));
        let due = format!("{}\n", answer_line(&answer, &after));
        run_with(&arguments, &load.model).gives(i32::from(answer.refused), &due);
        arguments[0] = "explain";
        let left = run_with(&arguments, &load.model);
        assert_eq!(left.status, i32::from(answer.refused));
        assert!(!left.text().contains("please report"), "{}", left.text());
        searches += 1;
    }
    println!("{searches} searches");
    assert!(searches >= 100);
}

/// Random models inside and in each way outside: `explain` says which, and the line is that of the independent implementation.
#[test]
fn random_models() {
    let mut random = Random::new(0x5A1D);
    let explain = |bytes: &[u8], more: &[&str]| {
        let arguments: Vec<OsString> = [&["explain", "--budget=50"], more]
            .concat()
            .iter()
            .map(OsString::from)
            .collect();
        let done = command::run(&arguments, &mut &bytes[..]).expect("an answer or a refusal");
        let said = String::from_utf8(done.output).unwrap();
        assert!(!said.contains("please report"), "{said}\n{bytes:02x?}");
        said
    };
    for _ in 0..400 {
        let bytes = inside(&mut random).end();
        for more in [&[][..], &["--loading"]] {
            let said = explain(&bytes, more);
            assert!(said.contains("\n  The model is in it: "), "{said}");
            assert!(said.contains(NO_STOP), "{said}");
        }
    }
    for way in WAYS {
        for _ in 0..20 {
            let bytes = outside(&mut random, way).end();
            let said = explain(&bytes, &[]);
            assert!(
                said.contains("\n  The model is not in it:\n"),
                "{way:?} {said}"
            );
            let said = explain(&bytes, &["--loading"]);
            assert!(said.contains("\nRefused 15, outside"), "{way:?} {said}");
            // Where variable 0 is no set nothing is on it; more than five ways are not listed.
            let listed = said.lines().filter(|line| line.starts_with("    ")).count();
            let several = [Way::ElementFirst, Way::NoVariable].contains(&way);
            let most = if several { 6 } else { 1 };
            assert!((1..=most).contains(&listed), "{way:?} {said}");
        }
    }
}
