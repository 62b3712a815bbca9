//! One case: set up, called, compared.

use crate::case::{Call, Case, Slot};
use crate::lent::Guard;
use crate::options::{Options, Plant};
use crate::table::Counts;
use crate::{entry, model, stopped};

/// How many differences of a call are printed.
const SHOWN: u64 = 5;

/// Makes the call, and compares its error code and the lists passed to it, and counts the pages that
/// it touched and may not. The sides of the guards are drawn.
pub fn run(c: &mut Case, number: u64, drawn: u64, options: &Options, counts: &mut Counts) {
    let (call, overlong) = (c.call, counts.overlong);
    let right = model::first_no(c);
    let plant = acting(options, call, number, right, overlong);
    let due = match plant {
        Some(Plant::Model(_)) => 0,
        _ => right,
    };
    lend(c, drawn, plant);
    let got = stopped::during(call, number, overlong, || entry::answer(c));
    counts.planted += u64::from(match plant {
        Some(Plant::Model(_)) => true,
        Some(Plant::Write) => spoil(c, got, drawn),
        Some(Plant::Touch) => touch(c, right, drawn),
        _ => false,
    });
    // Before the lists are read to be compared.
    let touched = match overlong {
        true => touched(c, right),
        false => Vec::new(),
    };
    let altered = match plant {
        // Not every element is there to compare.
        Some(Plant::Read | Plant::Before) => None,
        _ => altered(c, got),
    };
    counts.due[right as usize] += 1;
    counts.touched += touched.iter().map(|(_, pages)| *pages as u64).sum::<u64>();
    if got != due || altered.is_some() || !touched.is_empty() {
        counts.different += 1;
        if counts.different <= SHOWN {
            let (of, name, seed) = (stopped::kind(overlong), call.name(), options.seed);
            print!("DIFFERENT {of}{name}:{number}, seed {seed}: got {got}, expected {due}, ");
            println!("altered {altered:?}, pages touched {touched:?}, {c:?}");
        }
    }
    call.lent().for_each(|slot| c.list(slot).give_back());
}

/// The plant, where it acts in this case.
fn acting(options: &Options, call: Call, number: u64, right: u32, overlong: bool) -> Option<Plant> {
    let (plant, of) = options.plant?;
    let acts = match plant {
        Plant::Model(question) => right == question && number.is_multiple_of(3),
        Plant::Read | Plant::Before => right == 0 && !overlong,
        Plant::Write => number.is_multiple_of(3) && !overlong,
        Plant::Touch => overlong,
    };
    (of == call && acts).then_some(plant)
}

fn lend(c: &mut Case, drawn: u64, plant: Option<Plant>) {
    let call = c.call;
    let first = *call.shared().first().unwrap_or(&call.written()[0]);
    for slot in call.lent() {
        let side = [Guard::Before, Guard::After][(drawn >> slot as u32) as usize & 1];
        match plant {
            Some(Plant::Read) if slot == first => c.list(slot).lend(Guard::After, 1),
            Some(Plant::Before) if slot == first => c.list(slot).lend(Guard::Before, 1),
            _ => c.list(slot).lend(side, 0),
        }
    }
}

/// What may not be altered: after a rejected call nothing, else nothing that is only read.
fn kept(call: Call, got: u32) -> impl Iterator<Item = Slot> {
    let written: &[Slot] = if got == 0 { &[] } else { call.written() };
    call.shared().iter().chain(written).copied()
}

/// The first of these lists that is not what it was.
fn altered(c: &mut Case, got: u32) -> Option<Slot> {
    kept(c.call, got).find(|slot| !c.list(*slot).same())
}

/// Alters one element of these lists; whether there is one.
fn spoil(c: &mut Case, got: u32, drawn: u64) -> bool {
    let mut slots: Vec<Slot> = kept(c.call, got).collect();
    slots.retain(|slot| c.list(*slot).len() > 0);
    let chosen = slots.get(drawn as usize % slots.len().max(1));
    chosen.inspect(|slot| c.list(**slot).spoil()).is_some()
}

/// The lists of which no page may be touched: with an error code those that a later question
/// examines, or none does; in a call that is accepted the overlong ones.
fn watched(c: &mut Case, right: u32) -> Vec<Slot> {
    let call = c.call;
    let mut slots: Vec<Slot> = call.slices().collect();
    slots.retain(|slot| c.list(*slot).is_untouched());
    match right {
        0 => slots.retain(|slot| c.list(*slot).is_overlong()),
        _ => slots.retain(|slot| call.examined(*slot) > right),
    }
    slots
}

/// Touches one page of these lists; whether there is one. In a call that is accepted it is none
/// that may be touched.
fn touch(c: &mut Case, right: u32, drawn: u64) -> bool {
    let mut slots = watched(c, right);
    slots.retain(|slot| c.list(*slot).len() > 0);
    let Some(slot) = slots.get(drawn as usize % slots.len().max(1)) else {
        return false;
    };
    let list = c.list(*slot);
    list.touch(match right {
        0 => list.len() - 1,
        _ => (drawn >> 8) as usize % list.len(),
    });
    true
}

/// Which of these lists were touched, and how many pages of each. A call that is accepted may touch
/// the block's rows of the destination.
fn touched(c: &mut Case, right: u32) -> Vec<(Slot, usize)> {
    let n = &c.n;
    let rows = match right {
        0 => n.y - n.y0..(n.y + n.bh).min(n.height) - n.y0,
        _ => 0..0,
    };
    let but = rows.start * n.width..rows.end * n.width;
    let mut touched = Vec::new();
    for slot in watched(c, right) {
        let pages = c.list(slot).touched(but.clone());
        touched.extend((pages > 0).then_some((slot, pages)));
    }
    touched
}
