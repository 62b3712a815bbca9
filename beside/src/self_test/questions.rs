//! The nine questions (RULES, Questions) as the harness checks them, against the error code
//! stated with each case.

use support::Case;
use support::direction::Direction;
use support::distance::Distance;
use support::filter::Filter;
use support::frame::applying::Applying;
use support::frame::direction_pass::DirectionPass;
use support::frame::measuring::Measuring;
use support::frame::stated::{FrameCase, stated};
use support::frame::trying::Trying;
use support::frame::{CHROMA, LUMA};
use support::refusals::Stated;
use support::report::Tally;
use support::trial::Trial;
use support::working_damping::WorkingDamping;

pub fn check(tally: &mut Tally) {
    for (chroma, call) in [(false, "luma damping"), (true, "chroma damping")] {
        each(tally, call, WorkingDamping::stated(chroma), &[1, 8]);
        let accepted = WorkingDamping::all(chroma).filter(|c| c.number() == 0);
        tally.number(call, accepted.count() as i64, 20);
    }
    each(tally, "direction", Direction::stated(), &[1, 2, 4, 5, 9]);
    each(tally, "filter", Filter::stated(), &[1, 2, 4, 5, 6, 8, 9]);
    each(tally, "trial", Trial::stated(), &[1, 2, 4, 5, 7, 8, 9]);
    for (weighted, call) in [(true, "distance"), (false, "squares")] {
        each(tally, call, Distance::stated(weighted), &[1, 2, 4, 5, 9]);
    }
    let pass = stated::<DirectionPass>(&LUMA);
    each(tally, "direction pass", pass, &[1, 2, 4, 7, 9]);
    both::<Trying>(tally, "trying");
    both::<Measuring>(tally, "measuring");
    both::<Applying>(tally, "applying");
}

/// Luma and chroma, of which chroma alone validates 3.
fn both<C: FrameCase>(tally: &mut Tally, call: &str) {
    each(tally, call, stated::<C>(&LUMA), &[1, 2, 4, 7, 8, 9]);
    each(tally, call, stated::<C>(&CHROMA), &[1, 2, 3, 4, 7, 8, 9]);
}

/// Each error code of the call is among the stated ones, 0 too, and no other is.
fn each<C: Case>(
    tally: &mut Tally,
    call: &str,
    cases: impl IntoIterator<Item = Stated<C>>,
    asked: &[u32],
) {
    let mut found = [false; 10];
    for (stated, c) in cases {
        tally.number(&format!("{call} {c}"), c.number(), stated);
        found[stated as usize] = true;
    }
    for (number, found) in (0..).zip(found) {
        let due = number == 0 || asked.contains(&number);
        tally.number(call, i64::from(found), i64::from(due));
    }
}
