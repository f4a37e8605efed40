//! The auditor's page: well formed, with nothing beside it, and with all that it is to have.

use super::damage::corpus;
use super::json_text;
use super::markup::{parsed, Element};
use super::{designs_and, example, file, repository, run, run_with, EXAMPLES};
use repgypsum_host::command::theorems::THEOREMS;
use repgypsum_host::generate::Random;

/// The page's file and its elements, after a run with these arguments.
fn written(name: &str, status: i32, arguments: &[&str]) -> (String, Vec<Element>) {
    let out = file(&format!("page-{name}.html"), b"");
    let mut all = vec!["explain", "--html", &out];
    all.extend(arguments);
    let left = run(&all);
    assert_eq!((left.status, left.errors.as_str()), (status, ""), "{name}");
    let made = format!("stands in {out}.\n");
    assert!(left.text().ends_with(&made), "{}", left.text());
    let page = std::fs::read_to_string(&out).unwrap();
    let elements = elements(&page);
    (page, elements)
}

/// The elements behind the first two lines.
fn elements(page: &str) -> Vec<Element> {
    let front = "<!DOCTYPE html>\n<!-- repgypsum page, form 1 -->\n";
    let rest = page.strip_prefix(front).expect("how every page begins");
    parsed("html", rest)
}

fn texts(elements: &[Element], tag: &str) -> Vec<String> {
    let found = elements.iter().filter(|element| element.tag == tag);
    found.map(|element| element.text.clone()).collect()
}

/// Nothing is fetched, and every link leads to a place of the page, or holds its own content.
fn has_nothing_beside(elements: &[Element]) {
    for element in elements {
        assert!(!["script", "link", "img", "iframe"].contains(&element.tag.as_str()));
        for name in ["src", "srcset", "onclick", "onload"] {
            assert!(!element.attributes.contains_key(name), "{name}");
        }
        let Some(link) = element.attributes.get("href") else {
            continue;
        };
        match link.strip_prefix('#') {
            Some(id) => {
                let there = elements
                    .iter()
                    .filter(|one| one.attributes.get("id").is_some_and(|found| found == id));
                assert_eq!(there.count(), 1, "{link}");
            }
            None => assert!(link.starts_with("data:text/plain;"), "{link}"),
        }
    }
    let style = texts(elements, "style");
    assert!(style.len() == 1 && !style[0].contains("url(") && !style[0].contains("@import"));
}

/// What is behind a link's comma, decoded.
fn saved(elements: &[Element]) -> String {
    let link = elements
        .iter()
        .find(|element| element.attributes.contains_key("download"));
    let link = &link.expect("the quotation can be saved").attributes["href"];
    let (_, encoded) = link.split_once(',').expect("content behind a comma");
    let mut bytes = Vec::new();
    let mut rest = encoded.bytes();
    while let Some(byte) = rest.next() {
        bytes.push(match byte {
            b'%' => {
                let digits = [rest.next().unwrap(), rest.next().unwrap()];
                u8::from_str_radix(std::str::from_utf8(&digits).unwrap(), 16).unwrap()
            }
            _ => byte,
        });
    }
    String::from_utf8(bytes).unwrap()
}

const SECTIONS: [&str; 7] = [
    "What the answer stands on",
    "What the theorems say",
    "The declarations, tested",
    "The plan",
    "The model",
    "The quotation",
    "How to run it again",
];

#[test]
fn examples() {
    for name in EXAMPLES {
        let model = example(&format!("{name}.dp"));
        let (page, elements) = written(name, 0, &[&model]);
        has_nothing_beside(&elements);
        assert_eq!(texts(&elements, "h2"), SECTIONS, "{name}");
        assert_eq!(texts(&elements, "h1"), [format!("{name}.dp: cheapest")]);
        assert_eq!(texts(&elements, "svg").len(), 1);
        let text = std::fs::read_to_string(&model).unwrap();
        let listings = texts(&elements, "pre");
        assert!(listings.contains(&text), "{name}");

        // The table has the start and a row for each step.
        let answer = json_text::parsed(&run(&["explain", "--json", &model]).text());
        let steps = answer.get("steps").list().len();
        let theorems = elements
            .iter()
            .filter(|one| one.tag == "tr" && one.attributes.contains_key("id"));
        assert_eq!(
            texts(&elements, "tr").len(),
            2 + theorems.count() + 1 + steps,
            "{name}"
        );

        // Every sentence of the explanation stands on the page, and so do those of the declarations' test.
        let declarations = json_text::parsed(&run(&["declarations", "--json", &model]).text());
        for document in [&answer, &declarations] {
            for part in document.get("parts").list() {
                for sentence in part.get("sentences").list() {
                    let plain = sentence.get("text").text().replace('`', "");
                    let plain = plain.split('[').next().unwrap();
                    let plain = plain
                        .replace('&', "&amp;")
                        .replace('<', "&lt;")
                        .replace('>', "&gt;")
                        .replace('"', "&quot;");
                    let shown = page.replace("<code>", "").replace("</code>", "");
                    assert!(shown.contains(&plain), "{name}: {plain}");
                }
            }
        }
    }
}

/// The quotation of the page is the one that `plan --quote` writes; saved from the page it is verified.
#[test]
fn quotations() {
    let model = example("sop.dp");
    let (_, elements) = written("quoted", 0, &[&model]);
    let quote = file("page-sop.quote", b"");
    std::fs::remove_file(&quote).unwrap();
    assert_eq!(run(&["plan", "--quote", &quote, &model]).status, 0);
    let quotation = std::fs::read_to_string(&quote).unwrap();
    assert!(texts(&elements, "pre").contains(&quotation));
    assert_eq!(saved(&elements), quotation);
    let again = file("page-saved.quote", saved(&elements).as_bytes());
    assert_eq!(run(&["verify", &again, &model]).status, 0);
    assert!(texts(&elements, "pre").contains(&"repgypsum verify sop.quote".to_string()));
}

/// Every verdict and refusal has a page, and each says whether its mark rests on declarations.
#[test]
fn other_answers() {
    let rests = "The mark rests on no declaration.";
    let supposes = "The mark supposes that what the model declares is true";
    let runs = [
        (
            "no-plan",
            designs_and("constraint not at = b"),
            "--width=16",
            "No plan",
            Some(rests),
        ),
        (
            "broken",
            designs_and("constraint not at = none\nbound 1"),
            "--width=16",
            "No plan",
            Some(rests),
        ),
        (
            "stopped",
            designs_and("bound 1"),
            "--width=1",
            "Stopped: width stop",
            Some(supposes),
        ),
        (
            "contradicted",
            designs_and("bound 8"),
            "--width=16",
            "Contradicted",
            None,
        ),
    ];
    for (name, text, setting, verdict, declared) in runs {
        let model = file(&format!("page-{name}.dp"), text.as_bytes());
        let (page, elements) = written(name, 0, &[setting, &model]);
        has_nothing_beside(&elements);
        assert_eq!(texts(&elements, "strong"), [verdict]);
        for sentence in [rests, supposes] {
            assert_eq!(
                page.contains(sentence),
                declared == Some(sentence),
                "{name}: {sentence}"
            );
        }
        assert_eq!(
            page.contains("No plan is given."),
            name == "no-plan" || name == "broken"
        );
    }
    let troubled = file(
        "page-trouble.dp",
        designs_and("bound 1 / count(todo)").as_bytes(),
    );
    let (page, elements) = written("trouble", 1, &[&troubled]);
    has_nothing_beside(&elements);
    assert!(page.contains("The path to the refusal") && page.contains("The same refusal"));
    let cut = file("page-cut.model", &[1, 0]);
    let (page, elements) = written("cut", 1, &[&cut]);
    has_nothing_beside(&elements);
    assert!(page.contains("These bytes are no model.") && !page.contains("The quotation"));
}

/// Bytes have a text without names; signs of HTML and of the shell in a name are harmless.
#[test]
fn odd_inputs() {
    let (page, elements) = written("bytes", 0, &[&example("tsptw.model")]);
    has_nothing_beside(&elements);
    assert!(page.contains("this text stands for them, without names"));
    assert!(texts(&elements, "pre")
        .iter()
        .any(|text| text.starts_with("cost sum\n")));
    let model = std::fs::read(example("sop.dp")).unwrap();
    let odd = file("<b>&'\"`x`\u{7} $(y).dp", &model);
    let (_, elements) = written("odd", 0, &[&odd]);
    has_nothing_beside(&elements);
    let verify = "repgypsum verify '<b>&'\\''\"`x`\u{FFFD} $(y).quote'".to_string();
    assert!(texts(&elements, "pre").contains(&verify));
    let left = run_with(
        &["explain", "--html", &file("page-input.html", b"")],
        &model,
    );
    assert_eq!(left.status, 1, "a text where bytes are due");
}

/// A page replaces a page and nothing else.
#[test]
fn files_that_are_there() {
    let model = example("sop.dp");
    let kept = file("page-kept.html", b"<!DOCTYPE html>\n<p>another</p>\n");
    let left = run(&["explain", "--html", &kept, &model]);
    assert_eq!(left.status, 2);
    assert!(
        left.errors.contains("it is there already, and is no page"),
        "{}",
        left.errors
    );
    assert!(left.text().ends_with("\nThe page\n  It is not written.\n"));
    assert!(std::fs::read_to_string(&kept).unwrap().contains("another"));
    let (first, _) = written("replaced", 0, &[&model]);
    let out = file("page-older.html", first.as_bytes());
    assert_eq!(
        run(&["explain", "--html", &out, &example("tsptw.dp")]).status,
        0
    );
    assert!(std::fs::read_to_string(&out)
        .unwrap()
        .contains("<h1>tsptw.dp: cheapest</h1>"));
    let left = run(&["explain", "--html", "/no/such/folder/x.html", &model]);
    assert_eq!(left.status, 2);
    assert!(left.errors.contains("cannot be written"), "{}", left.errors);
}

/// Every theorem of the page's table is on the auditor's page of the repository, and stands in the file that is named.
#[test]
fn theorems() {
    let audit = std::fs::read_to_string(repository().join("docs/AUDIT.md")).unwrap();
    for theorem in THEOREMS {
        let name = theorem.name;
        assert!(audit.contains(&format!("`{name}`")), "{name}");
        let file = std::fs::read_to_string(repository().join(theorem.file)).unwrap();
        assert!(
            file.contains(&format!("pub {name} :")),
            "{name} in {}",
            theorem.file
        );
        assert!(theorem.says.ends_with('.'));
    }
}

/// Damaged and random models: a page that is well formed, whatever the answer.
#[test]
fn damaged_models() {
    let mut random = Random::new(0x9A6E);
    let mut statuses = [0; 2];
    for _ in 0..60 {
        let out = file("page-damaged.html", b"");
        let left = run_with(
            &["explain", "--width=4", "--length=6", "--html", &out],
            &corpus(&mut random),
        );
        assert!([0, 1].contains(&left.status), "{}", left.errors);
        has_nothing_beside(&elements(&std::fs::read_to_string(&out).unwrap()));
        statuses[left.status as usize] += 1;
    }
    println!("exit statuses 0 and 1: {statuses:?}");
    assert!(statuses.iter().all(|met| *met >= 10));
}
