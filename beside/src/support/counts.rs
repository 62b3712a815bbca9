//! How much was compared, as rows of a table.

use std::ffi::c_long;
use std::ops::AddAssign;

/// What is compared of the answer to one case, where the call is accepted.
#[derive(Clone, Copy, Default)]
pub struct Amount {
    /// Samples, and numbers such as a direction or a distance.
    pub samples: usize,
    /// Totals of units.
    pub totals: usize,
    /// Elements of measuring's scratch. They are compared with zeros: the reference has none.
    pub scratch: usize,
    /// Samples and totals of 4:4:0 that differ by the chroma direction map: the standard's, or
    /// the reference's own.
    pub by_map: usize,
    pub totals_by_map: usize,
}

/// The least that a run compares.
#[derive(Clone, Copy, Default)]
pub struct Floors {
    /// Samples compared with the reference's.
    pub samples: u64,
    /// Samples of 4:4:0 that differ by the chroma direction map.
    pub by_map: u64,
}

impl Amount {
    #[inline]
    pub fn samples(samples: usize) -> Self {
        Amount {
            samples,
            ..Self::default()
        }
    }

    pub fn totals(totals: usize) -> Self {
        Amount {
            totals,
            ..Self::default()
        }
    }
}

/// What was compared of one call, or of all.
#[derive(Clone, Copy, Default)]
pub struct Counts {
    pub cases: u64,
    samples: u64,
    totals: u64,
    scratch: u64,
    by_map: u64,
    totals_by_map: u64,
    pub refusals: u64,
    pub different: u64,
    /// Of processor time.
    pub seconds: f64,
}

impl Counts {
    pub fn print_head() {
        print_row(
            "call",
            ["cases", "samples", "unit totals", "rejected", "different"],
            "seconds",
        );
    }

    /// The scratch is counted among the samples.
    pub fn print(&self, name: &str) {
        let samples = self.samples + self.scratch;
        let counts = [
            self.cases,
            samples,
            self.totals,
            self.refusals,
            self.different,
        ];
        let counts = counts.map(|n| n.to_string());
        let seconds = format!("{:.2}", self.seconds);
        print_row(name, counts.each_ref().map(|n| n.as_str()), &seconds);
    }

    /// Prints the row of all calls; whether as many samples as wanted were compared with
    /// the reference's, and as many as wanted of them differ by the map.
    pub fn print_end(&self, floors: Floors) -> bool {
        self.print("in all");
        let (samples, scratch) = (self.samples, self.scratch);
        if scratch > 0 {
            println!(
                "samples compared with the reference: {samples}; scratch compared with 0: {scratch}"
            );
        }
        let (by_map, totals) = (self.by_map, self.totals_by_map);
        if by_map + totals > 0 {
            println!(
                "4:4:0: {by_map} samples and {totals} unit totals that the reference's own direction map would make otherwise"
            );
        }
        let samples = enough("samples", samples, floors.samples);
        let by_map = enough("4:4:0 samples", by_map, floors.by_map);
        samples && by_map
    }
}

impl AddAssign<Amount> for Counts {
    #[inline]
    fn add_assign(&mut self, more: Amount) {
        self.samples += more.samples as u64;
        self.totals += more.totals as u64;
        self.scratch += more.scratch as u64;
        self.by_map += more.by_map as u64;
        self.totals_by_map += more.totals_by_map as u64;
    }
}

impl AddAssign for Counts {
    fn add_assign(&mut self, more: Counts) {
        self.cases += more.cases;
        self.samples += more.samples;
        self.totals += more.totals;
        self.scratch += more.scratch;
        self.by_map += more.by_map;
        self.totals_by_map += more.totals_by_map;
        self.refusals += more.refusals;
        self.different += more.different;
        self.seconds += more.seconds;
    }
}

/// Whether there are as many as wanted; prints it where there are not.
fn enough(name: &str, count: u64, floor: u64) -> bool {
    if count < floor {
        println!("TOO FEW {name}: {count} of {floor}");
    }
    count >= floor
}

fn print_row(name: &str, counts: [&str; 5], seconds: &str) {
    print!("{name:<23}");
    counts.iter().for_each(|count| print!(" {count:>11}"));
    println!(" {seconds:>8}");
}

unsafe extern "C" {
    /// The C library's: microseconds of processor time.
    safe fn clock() -> c_long;
}

/// Processor time of this process so far, in seconds.
pub fn processor_time() -> f64 {
    clock() as f64 / 1e6
}
