//! docs/FIGURES.md has every table that `figures` prints.

use std::path::Path;
use std::process::Command;

#[test]
fn the_page_has_the_tables() {
    let page = Path::new(env!("CARGO_MANIFEST_DIR")).join("../docs/FIGURES.md");
    let Ok(page) = std::fs::read_to_string(page) else {
        return; // this folder alone, without the page
    };
    let printed = Command::new(env!("CARGO_BIN_EXE_figures")).output().expect("figures runs").stdout;
    let printed = String::from_utf8(printed).expect("text");
    let tables: Vec<&str> = printed.split("### ").skip(1).collect();
    assert_eq!(tables.len(), 6);
    for table in tables {
        let title = table.lines().next().unwrap_or_default();
        assert!(page.contains(table.trim_end()), "docs/FIGURES.md has another table for {}", title);
    }
}
