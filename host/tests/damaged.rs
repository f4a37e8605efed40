//! Damaged models and wrong settings: an answer always, and no buffer changed by a refusal of the input.

use repgypsum_host::answer::Answer;
use repgypsum_host::generate::ranges::ranged;
use repgypsum_host::generate::{damaged, model, Random};
use repgypsum_host::numbers::{refusal::BAD_SETTING, words_needed};
use repgypsum_host::reference::{plan_check, search};

/// A search's answer and whether the buffer changed.
fn run(model: &[u8], width: u64, length: u64) -> (Answer, bool) {
    let mut buffer = vec![0xA5; 8];
    let answer = search(model, width, length, 200, &mut buffer, words_needed(4, 6));
    (answer, buffer != vec![0xA5; 8])
}

#[test]
fn damaged_models() {
    let mut random = Random::new(0xBAD);
    let mut answers = [0; 18];
    for _ in 0..30_000 {
        let build = match random.below(2) {
            0 => model(&mut random),
            _ => ranged(&mut random),
        };
        let bytes = damaged(&mut random, &build);
        let (checked, cost, low) = plan_check(&bytes, &[]);
        let (answer, changed) = run(&bytes, 4, 6);
        answers[usize::from(checked)] += 1;
        if (4..=9).contains(&checked) {
            assert_eq!((answer.refused, answer.verdict), (true, checked));
            assert_eq!((cost, low), (0, 0));
            let nothing_else = Answer::refused_by_input(checked);
            assert_eq!((answer, changed), (nothing_else, false));
        } else {
            assert!(answer.rounds >= 1 && !(answer.refused && answer.verdict < 11));
        }
    }
    println!("answers by number {answers:?}");
    assert!([0, 4, 5, 6, 7, 9, 14]
        .iter()
        .all(|number| answers[*number] >= 100));
}

/// Every prefix of a well-made model is 4, and every continuation is 9.
#[test]
fn prefixes_and_continuations() {
    let mut random = Random::new(3);
    let mut prefixes = 0;
    for _ in 0..300 {
        let bytes = match random.below(2) {
            0 => model(&mut random).end(),
            _ => ranged(&mut random).end(),
        };
        for length in 0..bytes.len() {
            assert_eq!(plan_check(&bytes[..length], &[]), (4, 0, 0));
            prefixes += 1;
        }
        let longer = [&bytes[..], &[random.word() as u8]].concat();
        assert_eq!(plan_check(&longer, &[]), (9, 0, 0));
    }
    println!("{prefixes} prefixes");
}

#[test]
fn wrong_settings() {
    let bytes = model(&mut Random::new(5)).end();
    for (width, length) in [(0, 4), (3, 4), (6, 4), (8_192, 4), (4, 0), (4, 257)] {
        let nothing_else = Answer::refused_by_input(BAD_SETTING);
        assert_eq!(run(&bytes, width, length), (nothing_else, false));
    }
}
