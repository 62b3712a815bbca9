//! The agreement theorem (RULES, Agreement): trying, then applying any of the twelve pairs
//! unit by unit to a copy of the snapshot, then measuring the result with pair 0, 0.

use crate::seen::Seen;
use ours::frame as ours;
use support::Answer;
use support::counts::Amount;
use support::frame::applying::Applying;
use support::frame::comparing::Compared;
use support::frame::drawn::{Drawn, What, trial_pair};
use support::frame::measuring::Measuring;
use support::frame::stated::FrameCase;
use support::frame::trying::Trying;
use support::frame::{DampingChoice, Kind, Picture, unstated};
use support::random::Random;
use support::report::Tally;

/// Trying and applying, each given no damping or the figure that is in force then.
pub fn ways() -> Seen {
    Seen::new("damping given or not, in trying and in applying", 4)
}

fn see(ways: &mut Seen, trying: DampingChoice, applying: DampingChoice) {
    let figures = [trying, applying].map(|d| d.in_force());
    if figures == [unstated::figure(); 2] {
        ways.see(usize::from(2 * trying.unstated + applying.unstated));
    }
}

pub fn picture(tally: &mut Tally, ways: &mut Seen, d: &Drawn, kind: Kind) {
    let r = &mut d.random(kind, What::Pairs);
    let trying = Trying::drawn(d, kind);
    let tried = ours::trying(&trying);
    let numbers: Vec<usize> = (0..d.size.units()).map(|_| r.below(12) as usize).collect();
    let pairs: Vec<(u8, u8)> = numbers.iter().map(|&n| trial_pair(n)).collect();
    let Compared { picture, plane, .. } = &trying.compared;
    let told = told_anew(picture, d.figure, r);
    let applying = Applying::new(told, plane.clone(), &pairs, plane.clone());
    let applied = ours::applying(&applying);
    let compared = Compared {
        picture: measured(picture, d.figure, r),
        plane: applied.value,
        ..trying.compared.clone()
    };
    let measuring = Measuring::new(compared, (0, 0), r);
    let left = ours::measuring(&measuring);
    let taken = [tried.number, applied.number, left.number];
    let given = applying.picture.damping;
    if taken == [0; 3] {
        see(ways, picture.damping, given);
    }
    let of_unit = |(u, n): (usize, &usize)| tried.value[12 * u + n];
    let agreed = Answer {
        number: 0,
        value: numbers.iter().enumerate().map(of_unit).collect(),
    };
    let totals = Answer {
        number: taken.into_iter().max().unwrap_or(0),
        value: left.value.0.clone(),
    };
    tally.count(Amount::totals(numbers.len()));
    let inputs = &format_args!("{trying}, applied with {given}");
    tally.same(inputs, totals, agreed);
    tally.case(&measuring, left);
}

/// That figure in force, in a way drawn anew.
fn told_anew(picture: &Picture, figure: u8, r: &mut Random) -> Picture {
    Picture {
        damping: DampingChoice::random(figure, r),
        ..picture.clone()
    }
}

/// What measuring is given: the same, or other directions, variances and damping.
fn measured(picture: &Picture, figure: u8, r: &mut Random) -> Picture {
    if r.below(2) == 0 {
        return told_anew(picture, figure, r);
    }
    let mut other = told_anew(picture, r.between(3, 6) as u8, r);
    other.dirs.fill_with(|| r.below(8) as u8);
    other.vars.fill_with(|| r.between(0, 860_160) as u32);
    other
}
