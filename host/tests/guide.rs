//! The guide's lines, pasted: they print what stands below them.

use std::path::Path;
use std::process::Command;

/// The boxes of the page: their kind and their lines.
fn boxes(page: &str) -> Vec<(String, String)> {
    let mut boxes = Vec::new();
    let mut lines = page.lines();
    while let Some(line) = lines.next() {
        let Some(kind) = line.strip_prefix("```") else {
            continue;
        };
        let inside = lines.by_ref().take_while(|line| *line != "```");
        let text: String = inside.map(|line| format!("{line}\n")).collect();
        boxes.push((kind.to_string(), text));
    }
    boxes
}

#[test]
fn the_guide_prints_what_it_shows() {
    let root = Path::new(env!("CARGO_MANIFEST_DIR")).join("..");
    let page = std::fs::read_to_string(root.join("docs/GUIDE.md")).unwrap();
    let folder = Path::new(env!("CARGO_TARGET_TMPDIR")).join("guide");
    let _ = std::fs::remove_dir_all(&folder);
    std::fs::create_dir_all(&folder).unwrap();
    let programs = Path::new(env!("CARGO_BIN_EXE_repgypsum")).parent().unwrap();
    let path = format!("{}:{}", programs.display(), std::env::var("PATH").unwrap());
    let boxes = boxes(&page);
    let mut pasted = 0;
    for (place, (kind, lines)) in boxes.iter().enumerate() {
        if kind != "sh" {
            continue;
        }
        let mut shell = Command::new("sh");
        let shell = shell.arg("-c").arg(lines).current_dir(&folder);
        let left = shell.env("PATH", &path).output().unwrap();
        let printed = String::from_utf8(left.stdout).unwrap();
        let errors = String::from_utf8(left.stderr).unwrap();
        let shown = match boxes.get(place + 1) {
            Some((kind, shown)) if kind == "text" => shown.as_str(),
            _ => "",
        };
        assert_eq!((printed.as_str(), errors.as_str()), (shown, ""), "{lines}");
        pasted += 1;
    }
    assert!(pasted >= 10);
}
