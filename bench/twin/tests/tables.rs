//! The tables of docs/SCRIPT.md, read from the document itself and run row by row.

use std::fs;
use std::path::Path;

/// The rows of the tables under a heading, each cut into its trimmed cells.
fn rows(heading: &str) -> Vec<Vec<String>> {
    let path = Path::new(env!("CARGO_MANIFEST_DIR")).join("../../docs/SCRIPT.md");
    let text = fs::read_to_string(path).unwrap();
    let section = text.split("\n## ").find(|section| section.starts_with(heading)).unwrap();
    section
        .lines()
        .filter(|line| line.starts_with("| ") && !line.starts_with("| ---"))
        .skip(1)
        .map(|line| line.trim_matches('|').split('|').map(|cell| cell.trim().to_owned()).collect())
        .collect()
}

fn run(script: &str) -> String {
    let mut written = Vec::new();
    twin::run(script.as_bytes(), &mut written);
    String::from_utf8(written).unwrap()
}

fn unquoted(cell: &str) -> &str {
    cell.split('`').nth(1).unwrap_or(cell)
}

#[test]
fn columns_worked_out() {
    let rows = rows("Columns worked out");
    assert!(rows.len() >= 40);
    for row in rows {
        let [line, when, writes, why] = &row[..] else { panic!("{row:?}") };
        let mut script =
            if line == "(empty)" { String::new() } else { unquoted(line).replace('_', " ") };
        if line.ends_with("and byte 13") {
            script.push('\r');
        }
        // The line under test is line 1 where there is no nub yet, else line 2.
        if when != "after" {
            let written = run(&format!("{script}\n"));
            assert_eq!(written, format!("line 1 {}\n", unquoted(writes)), "{line} before: {why}");
        }
        if when != "before" {
            let written = run(&format!("N 2 1 1 0 0\n{script}\n"));
            let expected = format!("ok\nline 2 {}\n", unquoted(writes));
            assert_eq!(written, expected, "{line} after: {why}");
        }
    }
}

#[test]
fn worked_example() {
    let rows = rows("A worked example");
    assert!(rows.len() >= 8);
    let column = |place: usize| -> String {
        rows.iter().map(|row| format!("{}\n", unquoted(&row[place]))).collect()
    };
    assert_eq!(run(&column(1)), column(2));
}

#[test]
fn lines_and_their_ends() {
    assert_eq!(run(""), "");
    assert_eq!(run("#"), "#\n");
    assert_eq!(run("#\n"), "#\n");
    assert_eq!(run("#a\r\n\n"), "#a\r\nline 2 script 31 column 1\n");
    assert_eq!(
        run("\n\nX"),
        "line 1 script 31 column 1\nline 2 script 31 column 1\nline 3 script 31 column 1\n"
    );
}

#[test]
fn longest_script() {
    let note = format!("#{}", "x".repeat(65_535));
    assert_eq!(run(&note), format!("{note}\n"));
    assert_eq!(run(&format!("{note}\n")), "line 0 script 34 column 1\n");
    assert_eq!(run(&"\n".repeat(65_537)), "line 0 script 34 column 1\n");
}
