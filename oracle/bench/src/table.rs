//! The table that is printed.

/// One entry's times in microseconds; no width where it plays no part, no time where the Rust has no counterpart.
pub struct Row {
    pub entry: &'static str,
    pub b: Option<u32>,
    pub ours: f64,
    pub rust: Option<f64>,
}

impl Row {
    pub fn both(entry: &'static str, b: impl Into<Option<u32>>, ours: f64, rust: f64) -> Row {
        Row { entry, b: b.into(), ours, rust: Some(rust) }
    }

    pub fn alone(entry: &'static str, b: impl Into<Option<u32>>, ours: f64) -> Row {
        Row { entry, b: b.into(), ours, rust: None }
    }

    pub fn print(&self) {
        let b = self.b.map_or("-".to_string(), |b| b.to_string());
        let rust = self.rust.map_or("-".to_string(), |rust| format!("{rust:.3}"));
        let ratio = self.rust.map_or("-".to_string(), |rust| format!("{:.2}", self.ours / rust));
        println!("{:<44}{b:>4}{:>14.3}{rust:>14}{ratio:>8}", self.entry, self.ours);
    }
}

pub fn print_head() {
    println!("{:<44}{:>4}{:>14}{:>14}{:>8}", "entry", "b", "ours, us", "Rust, us", "ratio");
}
