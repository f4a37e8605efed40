//! `repgypsum assemble` and `repgypsum disassemble`.

use super::{designs_with, example, file, run, run_with, EXAMPLES};

#[test]
fn examples_there_and_back() {
    for name in EXAMPLES {
        let model = std::fs::read(example(&format!("{name}.model"))).unwrap();
        let text_path = example(&format!("{name}.dp"));
        let assembled = run(&["assemble", &text_path]);
        assert_eq!((assembled.status, assembled.errors.as_str()), (0, ""));
        assert!(assembled.output == model, "{name}");
        let text = std::fs::read(&text_path).unwrap();
        assert!(run_with(&["assemble"], &text).output == model, "{name}");
        let text = run(&["disassemble", &example(&format!("{name}.model"))]);
        assert_eq!((text.status, text.errors.as_str()), (0, ""));
        assert!(
            run_with(&["assemble", "-"], &text.output).output == model,
            "{name}"
        );
        let again = run_with(&["disassemble"], &model);
        assert_eq!(again.text(), text.text());
    }
}

/// A text with an error is told with its place by every command that assembles, and nothing is printed.
#[test]
fn errors_have_places() {
    let text = designs_with("cost hours[at, b]", "cost hours[at, d]");
    let path = file("error.dp", text.as_bytes());
    let due = format!(
        "{path}:24:20: `d` is not declared\n        cost hours[at, d]\n                       ^\n"
    );
    run(&["assemble", &path]).reports(&due);
    run(&["expand", &path]).reports(&due);
    run(&["plan", &path]).reports(&due);
    run(&["explain", &path]).reports(&due);
    run(&["check", "--plan", "0", &path]).reports(&due);
    let left = run_with(&["assemble"], text.as_bytes());
    left.reports("standard input:24:20: ");
    run_with(&["assemble"], b"").reports("standard input:1:1: ");
}

#[test]
fn texts_that_are_not_utf_8() {
    let left = run_with(&["assemble"], b"cost sum\n# \xC3\xA9 \xFF");
    left.reports("standard input:2:5: the text is not UTF-8");
    let path = file("not-utf-8.dp", &[0xFF]);
    run(&["plan", &path]).reports(&format!("{path}:1:1: the text is not UTF-8"));
}

/// The text without loops assembles to the same bytes, and has no loops, constants and other files.
#[test]
fn expanded_texts() {
    for name in EXAMPLES
        .map(|name| format!("{name}.dp"))
        .iter()
        .chain(&["tsptw-20/tour.dp".to_string()])
    {
        let plain = run(&["expand", &example(name)]);
        assert_eq!((plain.status, plain.errors.as_str()), (0, ""));
        for word in ["for ", "forall ", "constant ", "include ", "from "] {
            assert!(!plain.text().contains(word), "{name}: {word}");
        }
        let model = run(&["assemble", &example(name)]).output;
        assert_eq!(
            run_with(&["assemble"], &plain.output).output,
            model,
            "{name}"
        );
        assert_eq!(
            run_with(&["expand"], &plain.output).output,
            plain.output,
            "{name}"
        );
    }
}

#[test]
fn long_texts() {
    let comment = "# ".to_string() + &"x".repeat(1 << 20) + "\n";
    let text = std::fs::read_to_string(example("sop.dp")).unwrap();
    let path = file("long-comment.dp", (comment.clone() + &text).as_bytes());
    run(&["plan", &path]).is(0, "0 1 6 6 4 8 2 2 6 : 0 2 1 3\n");
    let left = run_with(&["assemble"], comment.repeat(17).as_bytes());
    left.complains(2, "standard input: the text has more than 16777216 bytes");
}

/// A refused model has no text: exit status 1, nothing on standard output.
#[test]
fn models_without_text() {
    let model = std::fs::read(example("sop.model")).unwrap();
    let cut = &model[..40];
    run_with(&["disassemble"], cut).complains(1, "standard input: refused 4, bytes end early");
    let longer = [&model[..], &[0]].concat();
    run_with(&["disassemble"], &longer).complains(1, "refused 9, ");
    let text = std::fs::read(example("sop.dp")).unwrap();
    run_with(&["disassemble"], &text).complains(1, "this looks like text");
    run_with(&["disassemble"], &vec![0; 70_000]).complains(1, "refused 1, model too long");
}
