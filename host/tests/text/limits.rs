//! Texts at the limits of document 01 and beyond them.

use super::errors::complaint;
use super::round_trip;
use repgypsum_host::text::assemble;

#[test]
fn errors_of_sizes() {
    let many = |what: &str, count: usize| format!("cost sum{}", format!("\n{what}").repeat(count));
    let told = [
        ("number = 0", 16, "variables"),
        ("table [1] = 0", 32, "tables"),
        ("transition: cost 0", 256, "transitions"),
        ("base:", 16, "base cases"),
        ("constraint 1 = 1", 32, "constraints"),
        ("bound 1", 8, "bounds"),
    ];
    for (command, most, what) in told {
        assert!(round_trip(&assemble(&many(command, most)).unwrap()));
        let message = format!(
            "line {}, column 1: at most {most} {what} are allowed, and this is one more",
            most + 2
        );
        let told = complaint(&many(command, most + 1));
        assert!(told.starts_with(&message), "{told}");
        if what == "constraints" {
            assert!(told.ends_with("one balanced `and` counts once"), "{told}");
        }
    }
    let conditions = |count| format!("cost sum base:{}", "\nwhen 1 = 1".repeat(count));
    assert!(assemble(&conditions(16)).is_ok());
    let told = complaint(&conditions(17));
    let message = "line 18, column 6: at most 16 conditions are allowed, and this is one more; ";
    assert!(told.starts_with(message), "{told}");
    let names: Vec<String> = (0..65).map(|object| format!("o{object}")).collect();
    let group = |count: usize| format!("cost sum\nobjects o =\n{}", names[..count].join("\n"));
    assert!(assemble(&group(64)).is_ok());
    assert_eq!(
        complaint(&group(65)),
        "line 67, column 1: a group has at most 64 objects"
    );
    let table = format!(
        "table [64, 64] = {}",
        vec![["0"; 64].join(" "); 64].join("/")
    );
    assert!(assemble(&many(&table, 3)).is_ok());
    let message = "line 5, column 1: with this command the model has more than 65536 bytes";
    assert_eq!(complaint(&many(&table, 4)), message);
}

#[test]
fn errors_of_nesting() {
    let chain = |terms: usize| format!("cost sum bound {}", vec!["1"; terms].join(" + "));
    assert!(round_trip(&assemble(&chain(32)).unwrap()));
    let deep = "the expression that begins here is nested 33 deep; at most 32 is allowed";
    let told = complaint(&chain(33));
    assert!(
        told.starts_with(&format!("line 1, column 16: {deep}: ")),
        "{told}"
    );
    let negations = |count: usize| format!("cost sum base: when {}1 = 1", "not ".repeat(count));
    assert!(round_trip(&assemble(&negations(30)).unwrap()));
    assert_eq!(
        complaint(&negations(31)),
        format!("line 1, column 21: {deep}")
    );
    let parentheses =
        |count: usize| format!("cost sum bound {}1{}", "(".repeat(count), ")".repeat(count));
    assert!(assemble(&parentheses(90)).is_ok());
    for opening in ["(", "not ", "~", "min(", "if ", "1 + (", "t[", "empty("] {
        let open = complaint(&format!("cost sum bound {}", opening.repeat(100_000)));
        assert!(
            open.contains("stand open here") || open.contains("expected"),
            "{open}"
        );
    }
}
