//! The table of results, and how many goals they meet.

use crate::race::Spread;

/// What a ratio must be at most, or nothing.
pub type Goal = Option<f64>;

/// Counts the goals of the rows that it prints.
pub struct Table {
    met: usize,
    missed: usize,
}

impl Table {
    /// Prints the table's head.
    pub fn new() -> Table {
        line(["library", "measured", "against", "ratio", "8 of 10 rounds", "goal", ""]);
        println!("|{}|", ["---"; 7].join("|"));
        Table { met: 0, missed: 0 }
    }

    /// A race: the library's seconds for one call, and their ratio to a peer's.
    pub fn ratio(&mut self, what: &str, ours: &[f64], peer: &str, theirs: &[f64], goal: Goal) {
        let ratio = Spread::of_ratios(ours, theirs);
        let limit = goal.map_or(String::new(), |most| format!("at most {most}"));
        let verdict = goal.map_or("", |most| self.judge(ratio.median <= most));
        race_line(what, ours, peer, ratio, &limit, verdict);
    }

    /// A race that the library must win. Both times may have a third taken from them, so the lead decides, not the ratio.
    pub fn faster(&mut self, what: &str, ours: &[f64], peer: &str, theirs: &[f64]) {
        let ratio = Spread::of_ratios(ours, theirs);
        let lead = Spread::of(theirs.iter().zip(ours).map(|(their, our)| their - our).collect());
        let verdict = self.judge(lead.median > 0.0);
        race_line(what, ours, peer, ratio, "below 1", verdict);
    }

    /// Something counted, and its ratio to a peer's count.
    pub fn count(&mut self, what: &str, ours: usize, peer: &str, theirs: usize, goal: Goal) {
        let ratio = ours as f64 / theirs as f64;
        let limit = goal.map_or(String::new(), |most| format!("at most {most}"));
        let verdict = goal.map_or("", |most| self.judge(ratio <= most));
        let peer = format!("{peer}: {theirs}");
        line([what, &ours.to_string(), &peer, &format!("{ratio:.2}"), "", &limit, verdict]);
    }

    /// Something measured that has a limit of its own.
    pub fn limit(&mut self, what: &str, measured: &str, spread: &str, limit: &str, met: bool) {
        line([what, measured, "", "", spread, limit, self.judge(met)]);
    }

    /// Says how many goals were met.
    pub fn end(&self) {
        println!("\nGoals: {} met, {} missed.", self.met, self.missed);
    }

    fn judge(&mut self, met: bool) -> &'static str {
        if met {
            self.met += 1;
            "met"
        } else {
            self.missed += 1;
            "missed"
        }
    }
}

/// A time in the unit that suits it.
pub fn seconds(time: f64) -> String {
    match time {
        _ if time >= 1e-3 => format!("{:.2} ms", time * 1e3),
        _ => format!("{:.2} µs", time * 1e6),
    }
}

fn race_line(what: &str, ours: &[f64], peer: &str, ratio: Spread, limit: &str, verdict: &str) {
    let time = seconds(Spread::of(ours.to_vec()).median);
    let spread = format!("{:.2} to {:.2}", ratio.low, ratio.high);
    line([what, &time, peer, &format!("{:.2}", ratio.median), &spread, limit, verdict]);
}

fn line(cells: [&str; 7]) {
    let widths = [51, 9, 28, 5, 17, 12, 6];
    let padded: Vec<String> =
        cells.iter().zip(widths).map(|(cell, width)| format!(" {cell:<width$} ")).collect();
    println!("|{}|", padded.join("|"));
}
