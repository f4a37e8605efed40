//! Damaged models and texts, random bytes: an exit status of 0 or 1, never a crash.

use super::{example, run_with, EXAMPLES};
use repgypsum_host::command;
use repgypsum_host::generate::{damaged, model, Random};
use repgypsum_host::reference;
use std::ffi::OsString;

/// How many models go through the built program, and how many through its function.
const THROUGH_PROGRAM: usize = 300;
const THROUGH_FUNCTION: usize = 10_000;

const COMMANDS: [&[&str]; 8] = [
    &["plan", "--budget", "200"],
    &[
        "plan", "--fields", "--width", "4", "--length", "6", "--budget", "200",
    ],
    &[
        "explain", "--width", "4", "--length", "6", "--budget", "200",
    ],
    &["plan", "--loading", "--budget", "200"],
    &["explain", "--loading", "--width", "4", "--budget", "200"],
    &[
        "plan", "--widths", "1,7", "--length", "6", "--budget", "200",
    ],
    &[
        "explain",
        "--loading",
        "--widths",
        "3,5,6",
        "--budget",
        "200",
    ],
    &["check", "--plan", "0,1"],
];

/// Random bytes, a damaged model, or a model as it was made.
pub fn corpus(random: &mut Random) -> Vec<u8> {
    match random.below(6) {
        0 => (0..random.below(200))
            .map(|_| random.word() as u8)
            .collect(),
        1 => model(random).end(),
        _ => {
            let build = model(random);
            damaged(random, &build)
        }
    }
}

#[test]
fn through_the_program() {
    let mut random = Random::new(0xC0DE);
    let mut statuses = [0; 2];
    for _ in 0..THROUGH_PROGRAM {
        let bytes = corpus(&mut random);
        for arguments in COMMANDS {
            let left = run_with(arguments, &bytes);
            assert!(
                [0, 1].contains(&left.status),
                "{arguments:?} {bytes:02x?} {}",
                left.errors
            );
            left.only_notes();
            assert!(left.text().ends_with('\n'));
            statuses[left.status as usize] += 1;
        }
        let left = run_with(&["disassemble"], &bytes);
        assert!([0, 1].contains(&left.status));
        assert_eq!(left.status == 0, left.errors.is_empty());
        let left = run_with(&["assemble"], &bytes);
        assert!(left.status == 2 || bytes.is_ascii());
    }
    println!("exit statuses 0 and 1: {statuses:?}");
    assert!(statuses.iter().all(|met| *met >= 100));
}

/// The same in one process, with the refusal and the line of the independent implementation.
#[test]
fn through_the_function() {
    let mut random = Random::new(0xF00D);
    let mut met = [0; 20];
    for _ in 0..THROUGH_FUNCTION {
        let bytes = corpus(&mut random);
        for arguments in COMMANDS {
            let arguments: Vec<OsString> = arguments.iter().map(OsString::from).collect();
            let done = command::run(&arguments, &mut &bytes[..]).expect("an answer or a refusal");
            let said = String::from_utf8(done.output).unwrap();
            assert!(!said.contains("please report"), "{said}\n{bytes:02x?}");
            assert!(done.status <= 1);
            if let Some(number) = said.strip_prefix("refused ") {
                assert_eq!(done.status, 1);
                met[number.trim().parse::<usize>().unwrap()] += 1;
            }
            if arguments[0] == "check" {
                let (answer, cost, low) = reference::plan_check(&bytes, &[0, 1]);
                assert_eq!(said, format!("{answer} {cost} {low}\n"));
            }
        }
    }
    println!("refusals by number {met:?}");
    let due = [4, 5, 6, 7, 9, 11, 12, 15];
    assert!(due.iter().all(|number| met[*number] >= 10));
}

/// Texts with a part cut out: assembled, or an error with its place.
#[test]
fn damaged_texts() {
    let mut random = Random::new(0x7E47);
    let mut errors = 0;
    for name in EXAMPLES {
        let text = std::fs::read(example(&format!("{name}.dp"))).unwrap();
        for _ in 0..20 {
            let from = random.below(text.len());
            let to = (from + 1 + random.below(20)).min(text.len());
            let cut = [&text[..from], &text[to..]].concat();
            let left = run_with(&["assemble"], &cut);
            if left.status == 2 {
                left.reports("standard input:");
                errors += 1;
            } else {
                assert_eq!((left.status, left.errors.as_str()), (0, ""));
            }
        }
    }
    println!("{errors} texts with an error");
    assert!(errors >= 40);
}

/// Damaged models by the commands that look at their declarations.
#[test]
fn declarations_of_damaged_models() {
    let mut random = Random::new(0xDEC0);
    let commands: [&[&str]; 2] = [
        &["declarations", "--states", "60", "--walks", "4"],
        &["plan", "--unconditional", "--budget", "200"],
    ];
    let mut met = [0; 2];
    for _ in 0..1_500 {
        let bytes = corpus(&mut random);
        for arguments in commands {
            let arguments: Vec<OsString> = arguments.iter().map(OsString::from).collect();
            let done = command::run(&arguments, &mut &bytes[..]).expect("an answer or a refusal");
            assert!(done.status <= 1);
            assert!(done.output.ends_with(b"\n"));
            met[usize::from(done.status)] += 1;
        }
    }
    println!("exit statuses 0 and 1: {met:?}");
    assert!(met.iter().all(|count| *count >= 200));
}
