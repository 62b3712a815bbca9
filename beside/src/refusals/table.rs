//! Counts of each call's cases by error code, and the floors under them.

use crate::case::Call;
use crate::model::asked;
use crate::options::Options;

/// The counts of the cases of one call.
pub struct Counts {
    pub call: Call,
    /// By the error code expected: 0 for accepted, else the question's number.
    pub due: [u64; 10],
    pub planted: u64,
    pub different: u64,
    pub seconds: f64,
    /// Whether these are the calls with overlong lists, and how many pages were touched that may
    /// not be.
    pub overlong: bool,
    pub touched: u64,
}

impl Counts {
    pub fn new(call: Call) -> Self {
        Counts {
            call,
            due: [0; 10],
            planted: 0,
            different: 0,
            seconds: 0.0,
            overlong: false,
            touched: 0,
        }
    }

    pub fn calls(&self) -> u64 {
        self.due.iter().sum()
    }

    pub fn print(&self) {
        let questions = (1..10u32).map(|q| {
            let count = self.due[q as usize];
            let is_asked = asked(self.call).contains(&q);
            if is_asked {
                count.to_string()
            } else {
                "-".into()
            }
        });
        let (name, calls, taken) = (self.call.name(), self.calls(), self.due[0]);
        print_row(name, [calls, taken].map(|n| n.to_string()), questions);
        println!(" {:>9} {:>6.1}", self.different, self.seconds);
    }
}

fn print_row(name: &str, counts: [String; 2], questions: impl Iterator<Item = String>) {
    print!("{name:<15} {:>9} {:>9}", counts[0], counts[1]);
    questions.for_each(|count| print!(" {count:>8}"));
}

pub fn print_head() {
    let counts = ["calls", "accepted"].map(String::from);
    print_row("call", counts, (1..10).map(|q| format!("error {q}")));
    println!(" {:>9} {:>6}", "different", "s");
}

/// Prints the sums of the calls with overlong lists and what did not occur; whether all is the same
/// and occurred.
pub fn print_overlong(counts: &[Counts], options: &Options) -> bool {
    let sum = |of: fn(&Counts) -> u64| counts.iter().map(of).sum::<u64>();
    let (calls, different) = (sum(Counts::calls), sum(|c| c.different));
    print!("overlong lists: {calls} calls, {different} different, ");
    print!("{} pages touched", sum(|c| c.touched));
    if options.plant.is_some() {
        print!(", {} planted", sum(|c| c.planted));
    }
    println!();
    let mut all_occurred = true;
    for c in counts {
        for code in overlong_codes(c.call) {
            if c.due[code as usize] == 0 {
                println!("TOO FEW overlong {}, error code {code}", c.call.name());
                all_occurred = false;
            }
        }
    }
    different == 0 && all_occurred
}

/// Every error code of the call; and the block filter accepts overlong destinations.
fn overlong_codes(call: Call) -> Vec<u32> {
    let accepted = (call == Call::FilterBlock).then_some(0);
    asked(call).iter().copied().chain(accepted).collect()
}

/// Prints the sums and what occurred too seldom; whether all is the same and occurred.
pub fn print_end(counts: &[Counts], options: &Options) -> bool {
    let sum = |of: fn(&Counts) -> u64| counts.iter().map(of).sum::<u64>();
    let (calls, taken) = (sum(Counts::calls), sum(|c| c.due[0]));
    let different = sum(|c| c.different);
    let seconds: f64 = counts.iter().map(|c| c.seconds).sum();
    print!("{calls} calls, {taken} accepted, {different} different, ");
    if options.plant.is_some() {
        print!("{} planted, ", sum(|c| c.planted));
    }
    println!("{seconds:.0} s");
    let floors = &options.measure;
    let mut seldom = questions(counts, floors.each_question);
    if options.only.is_none() {
        seldom.push(("calls".into(), calls, floors.calls));
        seldom.push(("accepted".into(), taken, floors.taken));
    }
    seldom.retain(|(_, count, least)| count < least && options.case.is_none());
    for (what, count, least) in &seldom {
        println!("TOO FEW {what}: {count} of {least}");
    }
    different == 0 && seldom.is_empty()
}

/// Each question of each call, how often its check was the first to fail, and how often it must be.
fn questions(counts: &[Counts], least: u64) -> Vec<(String, u64, u64)> {
    let mut list = Vec::new();
    for c in counts {
        for &q in asked(c.call) {
            let what = format!("{}, error code {q}", c.call.name());
            list.push((what, c.due[q as usize], least));
        }
    }
    list
}
