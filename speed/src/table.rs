//! The table of the measurements as Markdown: printed line by line, and kept for a file.

use crate::clock::Least;

pub struct Table {
    emulated: bool,
    text: String,
}

/// A number with a comma before each three digits.
pub fn thousands(number: u64) -> String {
    let digits = number.to_string();
    let comma = |i: usize| if i > 0 && (digits.len() - i) % 3 == 0 { "," } else { "" };
    digits.char_indices().map(|(i, digit)| format!("{}{digit}", comma(i))).collect()
}

/// Nanoseconds as microseconds.
fn microseconds(time: f64) -> String {
    if time < 100e3 { format!("{:.1}", time / 1e3) } else { thousands((time / 1e3).round() as u64) }
}

impl Table {
    pub fn new(emulated: bool) -> Table {
        Table { emulated, text: String::new() }
    }

    pub fn line(&mut self, line: &str) {
        println!("{line}");
        self.text.push_str(line);
        self.text.push('\n');
    }

    pub fn head(&mut self) {
        self.line("");
        let mark = if self.emulated { " (emulated)" } else { "" };
        self.line(&format!("| What | Ours, µs{mark} | Rust, µs{mark} | Ratio{mark} | Wanted | Turns |"));
        self.line("|---|---|---|---|---|---|");
    }

    /// A ratio above what is wanted is bold.
    pub fn row(&mut self, what: &str, least: &Least, wanted: Option<f64>) {
        let ratio = least.ours / least.rust;
        let above = wanted.map_or(false, |wanted| ratio > wanted);
        let ratio = if above { format!("**{ratio:.2}**") } else { format!("{ratio:.2}") };
        let wanted = wanted.map_or(String::new(), |wanted| format!("{wanted} "));
        let [ours, rust] = [least.ours, least.rust].map(microseconds);
        let turns = thousands(least.turns.into());
        let calls = if least.calls == 1 { String::new() } else { format!(" of {}", least.calls) };
        self.line(&format!("| {what} | {ours} | {rust} | {ratio} | {wanted}| {turns}{calls} |"));
    }

    pub fn text(&self) -> &str {
        &self.text
    }
}
