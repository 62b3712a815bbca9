//! Calls with lists in pages that nothing has touched, some of them overlong. What a list holds is
//! examined only after every earlier question has passed: a rejected call touches no list that a
//! later question examines, and none that it would write. The block filter accepts a longer
//! destination of whole rows, and touches the block's rows alone.

use crate::case::{CALLS, Call, Case, Slot};
use crate::draw::{Sides, draw};
use crate::faults::damage;
use crate::lent::OVERLONG;
use crate::model::{asked, first_no};
use crate::options::Options;
use crate::random::Random;
use crate::table::Counts;
use crate::{pages, run};

/// Makes the calls of every entry that is passed a list.
pub fn run_calls(c: &mut Case, options: &Options) -> Vec<Counts> {
    assert!(pages::are_counted(), "touched pages cannot be counted here");
    let is_run = |call: &Call| {
        let named = options.only.is_none_or(|only| only == *call);
        named && call.slices().next().is_some()
    };
    let calls = CALLS.iter().map(|(call, _)| *call).filter(is_run);
    calls.map(|call| run_call(c, call, options)).collect()
}

fn run_call(c: &mut Case, call: Call, options: &Options) -> Counts {
    let mut counts = Counts::new(call);
    counts.overlong = true;
    let mut r = Random::new(!Random::new(options.seed).next() ^ (call as u64) << 48);
    for round in 0..options.measure.rounds {
        for slots in sets(call) {
            for question in damaged(call, &slots) {
                let width = draw_case(c, call, question, &mut r);
                place(c, &slots, width, round);
                let number = counts.calls();
                run::run(c, number, r.next(), options, &mut counts);
            }
        }
    }
    counts
}

/// Which lists are overlong: none, all, each, and each two.
fn sets(call: Call) -> Vec<Vec<Slot>> {
    let all: Vec<Slot> = call.slices().collect();
    let mut sets = vec![Vec::new(), all.clone()];
    for (k, one) in all.iter().enumerate() {
        sets.push(vec![*one]);
        sets.extend(all[..k].iter().map(|other| vec![*other, *one]));
    }
    sets
}

/// What is wrong besides overlong lists: nothing, 0, and except with two of them what each question
/// checks.
fn damaged(call: Call, slots: &[Slot]) -> Vec<u32> {
    let all = slots.len() == call.slices().count();
    match slots.len() {
        0 => asked(call).to_vec(),
        2 if !all => vec![0],
        _ => [&[0], asked(call)].concat(),
    }
}

/// Draws a case in which the check of this question is the first that fails, or with 0 none does.
/// All lists hold zeros but for the damage. The plane's width, before it was damaged.
fn draw_case(c: &mut Case, call: Call, question: u32, r: &mut Random) -> usize {
    loop {
        draw(c, call, Sides::Usual, r);
        call.slices().for_each(|slot| c.list(slot).set_zero());
        let width = c.n.width;
        if question != 0 {
            damage(c, question, r);
        }
        if width > 1 && first_no(c) == question {
            return width;
        }
    }
}

/// Makes these lists overlong, and leaves them and all others that hold zeros in untouched pages.
/// The block filter's destination has whole rows, and in every second round one element more.
fn place(c: &mut Case, overlong: &[Slot], width: usize, round: usize) {
    for slot in c.call.slices() {
        let length = match (c.call, slot) {
            _ if !overlong.contains(&slot) => c.list(slot).len(),
            (Call::FilterBlock, Slot::Dst) => OVERLONG.next_multiple_of(width) + round % 2,
            _ => OVERLONG,
        };
        if overlong.contains(&slot) || c.list(slot).is_zero() {
            c.list(slot).set_untouched(length);
        }
    }
}
