//! The table of results: the proved monitor, the one in Rust with tables and the one in Rust of the same steps.

use crate::measure::Cost;

/// A number with commas.
fn grouped(n: usize) -> String {
    let digits = n.to_string();
    let mut out = String::new();
    for (i, digit) in digits.chars().enumerate() {
        if i > 0 && (digits.len() - i) % 3 == 0 {
            out.push(',');
        }
        out.push(digit);
    }
    out
}

/// A row: of each monitor a text, and the ratios of the proved one's number to the others'.
fn line(name: &str, texts: [String; 3], [ours, tables, same]: [f64; 3], rates: [String; 3]) {
    let [a, b, c] = texts;
    let [p, q, r] = rates;
    let (to_tables, to_same) = (ours / tables, ours / same);
    println!("{name:<27}{a:>13}{b:>14}{c:>13}{to_tables:>9.2}{to_same:>9.2}{p:>13}{q:>13}{r:>13}");
}

pub fn head() {
    let columns = ["proved", "Rust, tables", "Rust, same"];
    let [a, b, c] = columns;
    let (d, e) = ("/ tables", "/ same");
    println!(
        "{:<27}{a:>13}{b:>14}{c:>13}{d:>9}{e:>9}{:>13}{:>13}{:>13}",
        "", "proved / s", "tables / s", "same / s"
    );
}

pub fn row(name: &str, cost: Cost) {
    let each = cost.map(|ns| format!("{} ns", grouped(ns.round().max(0.0) as usize)));
    let rate = cost.map(|ns| grouped((1e9 / ns) as usize));
    line(name, each, cost, rate);
}

pub fn sizes(name: &str, sizes: [usize; 3]) {
    let bytes = sizes.map(|n| format!("{} bytes", grouped(n)));
    line(name, bytes, sizes.map(|n| n as f64), Default::default());
}
