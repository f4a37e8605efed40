//! Names by index, and what things are called that have none.

use super::example_texts;
use repgypsum_host::models::tsptw;
use repgypsum_host::reference::Value;
use repgypsum_host::text::{disassemble, names, Names};

#[test]
fn names_by_index() {
    let texts = example_texts();
    let designs = names(&texts[0]).unwrap();
    assert_eq!(designs.transition(1), "load b");
    assert_eq!(designs.transition(3), "transition 3");
    assert_eq!(
        (designs.variable(0), designs.variable(1)),
        ("todo".to_string(), "at".to_string())
    );
    assert_eq!(
        (designs.table(0), designs.table(1)),
        ("hours".to_string(), "table 1".to_string())
    );
    assert_eq!(designs.object(1, 3), "c");
    assert_eq!(designs.value(0, &Value::Set(0b1010)), "{a, c}");
    assert_eq!(designs.value(1, &Value::Element(0)), "none");
    assert_eq!(names(&texts[1]).unwrap().value(2, &Value::Number(-4)), "-4");
}

#[test]
fn names_where_there_are_none() {
    let unnamed = names(&disassemble(&tsptw()).unwrap()).unwrap();
    let variables: Vec<String> = (0..4).map(|index| unnamed.variable(index)).collect();
    assert_eq!(variables, ["set 0", "element 1", "number 2", "variable 3"]);
    assert_eq!(unnamed.transition(0), "transition 0");
    assert_eq!(unnamed.value(0, &Value::Set(0b101)), "{0, 2}");
    assert_eq!(Names::default().variable(2), "variable 2");
    assert_eq!(Names::default().object(2, 5), "5");
}
