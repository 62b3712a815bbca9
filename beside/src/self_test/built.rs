//! The blocks built to show a sum under the square root that is rounded once: that they lie
//! where they should, that the reference rounds twice, and that the results differ.

use support::Case;
use support::built::{Built, C2, TOP};
use support::distance::Distance;
use support::random::Random;
use support::report::Tally;

pub fn check(tally: &mut Tally, r: &mut Random, long: bool) {
    for _ in 0..if long { 1_000 } else { 100 } {
        let built = Built::under_top(r);
        let under = (TOP - C2..TOP).contains(&built.product());
        tally.number("just under 2^55", i64::from(under), 1);
        let (twice, once) = (built.distance(false), built.distance(true));
        let rust = Distance::built(&built).result();
        tally.number("rounded twice", rust, twice);
        tally.number("the results differ", i64::from(twice != once), 1);
    }
}
