//! Many small calls drawn at random: the four routes on the same lists give the same output, each
//! with the weight of its rule.

use crate::checks::support::{modulus, weight, Case, Tally};
use crate::compare::composed_by;
use crate::plain::random::Random;
use crate::plain::substitution::substitution;
use crate::products::MODULI;

const DRAWS: usize = 20_000;
const LARGEST: usize = 200;

/// So many first places of an output are held against the definition, which is quick for few.
const FIRST: usize = 4;

/// A case whose order and counts are drawn each for itself, so that any may be the largest.
fn drawn(random: &mut Random) -> Case {
    let p = if random.once_in(2) { modulus(random) } else { random.pick(&MODULI) };
    let [n, m, count] = [1, 0, 0].map(|least| random.count(least, LARGEST));
    Case { p, n, f: random.list(p, m), g: random.list(p, count) }
}

pub fn four_routes(tally: &mut Tally, random: &mut Random) {
    for _ in 0..DRAWS {
        let case = drawn(random);
        let Case { p, n, f, g } = &case;
        let by = |route| composed_by(tally, random, route, &case, weight(route, *p, f.len(), *n));
        let [first, others @ ..] = [1, 2, 3, 4].map(by);
        for (place, other) in others.iter().enumerate() {
            tally.equal((place + 2, &case), other, &first);
        }
        let few = FIRST.min(*n);
        tally.equal(&case, &first[..few], &substitution(*p, f, g, few));
    }
}
