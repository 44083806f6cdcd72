//! Tables in Markdown.

use std::fmt::Display;

pub fn table(title: &str, head: &[impl Display], rows: &[Vec<String>]) {
    if rows.is_empty() {
        return;
    }
    println!("\n## {title}\n");
    line(head);
    line(&vec!["---"; head.len()]);
    rows.iter().for_each(|row| line(row));
}

fn line(cells: &[impl Display]) {
    cells.iter().for_each(|cell| print!("| {cell} "));
    println!("|");
}

/// Three digits, or all of a whole number.
pub fn figure(x: f64) -> String {
    if x < 9.995 {
        format!("{x:.2}")
    } else if x < 99.95 {
        format!("{x:.1}")
    } else {
        format!("{x:.0}")
    }
}

pub fn thousands(n: usize) -> String {
    if n < 1_000 { n.to_string() } else { format!("{},{:03}", thousands(n / 1_000), n % 1_000) }
}
