//! What is written for people: numbers, columns, standard output and standard error.
pub use crate::grouped::grouped as number;
use std::io::Write;

/// Writes a whole text to standard output, or says that it could not.
pub fn all(text: &str) -> std::io::Result<()> {
    let mut out = std::io::stdout().lock();
    out.write_all(text.as_bytes())?;
    out.flush()
}

/// Writes a text to standard error. Where that is closed or full there is nobody to tell it, and the work goes on.
pub fn aside(text: &str) {
    let _ = std::io::stderr().write_all(text.as_bytes());
}

/// Says what went wrong.
pub fn wrong(what: &str) {
    aside(&format!("crn: {what}\n"));
}

/// So many of a thing: `1 level`, `7 levels`.
pub fn count(n: u64, thing: &str) -> String {
    format!("{} {thing}{}", number(n), if n == 1 { "" } else { "s" })
}

/// Rows in columns, each as wide as its widest cell, right-aligned; a row of one cell runs over them all.
pub fn table(rows: &[Vec<String>]) -> String {
    let columns = rows.iter().map(Vec::len).max().unwrap_or(0);
    let wide = |c: usize| rows.iter().filter(|r| r.len() == columns).map(|r| r[c].chars().count()).max().unwrap_or(0);
    let widths: Vec<usize> = (0..columns).map(wide).collect();
    let mut out = String::new();
    for row in rows {
        for (cell, width) in row.iter().zip(&widths) {
            out += &format!("  {cell:>width$}");
        }
        out.push('\n');
    }
    out
}
