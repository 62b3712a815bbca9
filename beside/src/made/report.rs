//! What is printed of a picture.

use support::joined;

/// The totals of a unit: one for each trial, and the measured one.
pub struct Totals {
    pub tried: [i64; 12],
    pub measured: i64,
}

impl Totals {
    /// Prints the unit's line; whether the measured total is the one of its trial.
    pub fn print(&self, unit: usize, trial: usize, (primary, secondary): (u8, u8)) -> bool {
        let (tried, measured) = (joined(self.tried), self.measured);
        let same = self.tried[trial] == measured;
        let told = if same {
            "the same as tried"
        } else {
            "different"
        };
        println!(
            "unit {unit}, pair {primary}, {secondary}: tried {tried}; measured {measured}, {told}"
        );
        same
    }
}

/// The name of a layout, by its subsampling flags.
pub fn layout(flags: (u8, u8)) -> &'static str {
    match flags {
        (0, 0) => "4:4:4",
        (1, 0) => "4:2:2",
        (0, _) => "4:4:0",
        _ => "4:2:0",
    }
}
