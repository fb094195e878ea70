//! The page's example is the one that is run. Where the crate was installed alone, there is nothing to compare.

use std::fs::read_to_string;

#[test]
fn the_example_of_the_page() {
    let page = concat!(env!("CARGO_MANIFEST_DIR"), "/../../docs/rust.md");
    let Ok(page) = read_to_string(page) else { return };
    let example = include_str!("../examples/visits.rs");
    let indent = |line: &str| if line.is_empty() { "\n".to_string() } else { format!("    {line}\n") };
    let indented: String = example.lines().map(indent).collect();
    assert!(page.contains(&indented), "docs/rust.md has another example than examples/visits.rs");
}
