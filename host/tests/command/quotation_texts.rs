//! Quotations as text: what is wrong with one and where, and random ones read back as they were.

use super::quotations::quoted;
use super::{example, file, run};
use repgypsum_host::beam::Beam;
use repgypsum_host::generate::widths::rising;
use repgypsum_host::generate::{model, settings, Random};
use repgypsum_host::numbers::words_needed;
use repgypsum_host::quotation::{changes, read, written, Quotation, Said};
use repgypsum_host::reference::{search, search_widths};

/// A quotation with one thing wrong, and what is said of it at which place.
#[test]
fn wrong_quotations() {
    let path = quoted("wrong.quote", &example("three-designs.dp"), &[]);
    let text = std::fs::read_to_string(&path).unwrap();
    let line = "0 1 7 7 3 14 3 4 7 : 0 1 2";
    let told = [
        (
            "repgypsum quotation, form 2",
            "repgypsum quotation, form 3",
            "1:1: a quotation begins with the line `repgypsum quotation, form 2`",
        ),
        (
            "version: ",
            "verson: ",
            "4:1: expected `version:` and its value",
        ),
        (
            "width: 16",
            "width: 4097",
            "6:8: expected a number from 0 to 4096",
        ),
        (
            "width: 16",
            "width: 1 6",
            "6:8: expected a number from 0 to 4096",
        ),
        (
            "length: 64",
            "length: -1",
            "7:9: expected a number from 0 to 256",
        ),
        (
            "budget: 100000",
            "budget: 4294967296",
            "8:9: expected a number from 0 to 4294967295",
        ),
        (
            line,
            "0 1 7 7 4 14 3 4 7 : 0 1 2",
            "9:7: the plan has 3 steps, and its length is stated as 4",
        ),
        (
            line,
            "0 1 7 7 3 14 3 4 : 0 1 2",
            "9:7: expected the nine fields of an answer, a colon and the plan",
        ),
        (
            "repgypsum quotation, form 2",
            "repgypsum quotation, form 1",
            "9:7: expected the eight fields of an answer, a colon and the plan",
        ),
        (
            line,
            "6 1 7 7 3 14 3 4 7 : 0 1 2",
            "9:7: expected a verdict from 0 to 5 and a plan flag of 0 or 1",
        ),
        (
            line,
            "0 1 7 7 3 14 3 4 7 : 0 1 256",
            "9:7: expected transition numbers from 0 to 255 behind the colon",
        ),
        (
            "mark: cheapest",
            "mark: dearest",
            "10:7: the line says: cheapest, a plan at cost 7, bound 7",
        ),
        ("steps: 3", "steps: 2", "12:8: the plan has 3 steps"),
        (
            "    1 load b\n",
            "    2 load b\n",
            "14:1: expected step 1 of the line's plan, and its name",
        ),
        (
            "    1 load b\n",
            "",
            "14:1: expected step 1 of the line's plan, and its name",
        ),
        (
            "    01 00 02",
            "    01 0 02",
            "18:8: expected a byte as two hexadecimal digits",
        ),
        (
            "    01 00 02",
            "    01 +0 02",
            "18:8: expected a byte as two hexadecimal digits",
        ),
        (
            "    01 00 02",
            "    01 02",
            "24:1: 179 bytes stand here, and 180 are stated",
        ),
        ("\nend\n", "\n", "24:1: expected `end`"),
        (
            "\nend\n",
            "\nend\nmore\n",
            "25:1: nothing stands behind `end`",
        ),
    ];
    for (old, new, message) in told {
        assert_eq!(text.matches(old).count(), 1, "{old}");
        let path = file("wrong.quote", text.replace(old, new).as_bytes());
        run(&["verify", &path]).reports(&format!("{path}:{message}\n"));
    }
    let path = file("model.quote", &std::fs::read(example("sop.model")).unwrap());
    assert_eq!(run(&["verify", &path]).status, 2);
    run(&["verify", "no/such.quote"]).complains(2, "cannot be read");
    let long = file("long.quote", &vec![b'x'; (1 << 20) + 1]);
    run(&["verify", &long]).complains(2, "a quotation has at most 1048576 bytes");
}

/// Quotations of random runs are read back as they were; the lines are those of the plain implementation.
#[test]
fn random_runs() {
    let mut random = Random::new(0x9407E);
    let mut same = 0;
    for _ in 0..500 {
        let bytes = model(&mut random).end();
        let (width, length, budget) = settings(&mut random);
        let beam = match random.chance(50) {
            true => Beam::Listed(rising(&mut random)),
            false => Beam::UpTo(width),
        };
        let mut plan = vec![0; length as usize];
        let words = words_needed(beam.widest(), length);
        let answer = match &beam {
            Beam::UpTo(width) => search(&bytes, *width, length, budget, &mut plan, words),
            Beam::Listed(widths) => search_widths(&bytes, widths, length, budget, &mut plan, words),
        };
        plan.truncate(answer.length as usize);
        let Some(said) = Said::of(&answer, &plan) else {
            continue;
        };
        let quotation = Quotation {
            title: "ä \"model\"".to_string(),
            version: "1".to_string(),
            kit: String::new(),
            beam,
            length: length as u32,
            budget: budget as u32,
            names: said
                .plan
                .iter()
                .map(|step| format!("step {step}"))
                .collect(),
            said,
            model: bytes,
        };
        assert_eq!(read(&written(&quotation)).unwrap(), quotation);
        assert_eq!(quotation.rerun().unwrap(), quotation.said);
        assert!(changes(&quotation, &quotation).is_empty());
        same += 1;
    }
    println!("{same} quotations");
    assert!(same >= 200);
}
