//! Equations for the steps that the routes name, for the search for primes, and for the numbers of rendering.

use crate::plain::counts::quotient_rounded_up;
use crate::plain::random::Random;
use crate::plain::{field, primes, products, refusals, render, routes};
use crate::rows::{list, untested, PRIMES};

pub fn all(random: &mut Random) -> Vec<String> {
    let mut equations = Vec::new();
    for _ in 0..25 {
        equations.extend(one_variable(random));
        equations.extend(parts(random));
        equations.extend(two_variables(random));
        equations.extend(rows(random));
        equations.push(division(random));
        equations.push(below(random));
        equations.push(rendering(random));
    }
    equations
}

/// The cut product, the sums with a constant and with a list, the power and the join.
fn one_variable(random: &mut Random) -> Vec<String> {
    let (p, n, e) = (untested(random), random.count(1, 4), random.count(0, 3));
    let [s, t, u] = [0; 3].map(|_| random.list(p, n));
    let c = random.coefficient(p);
    let product = products::product(p, &t, &u, n).0;
    let power =
        (0..e).fold(products::places(&[1], n), |power, _| products::product(p, &power, &t, n).0);
    let with_constant = products::sum(p, &t, &products::places(&[c], n));
    let (ss, ts, us) = (list(&s), list(&t), list(&u));
    vec![
        format!("cut_product {p} {n} {ts} {us} ≡ {}", list(&product)),
        format!("cut_sum {p} {n} {ts} {} ≡ {}", list(&[c]), list(&with_constant)),
        format!("cut_sum {p} {n} {ts} {us} ≡ {}", list(&products::sum(p, &t, &u))),
        format!("joined {p} {n} {ss} {ts} {us} ≡ {}", list(&products::sum(p, &s, &product))),
        format!("cut_power {p} {n} {ts} {e} ≡ {}", list(&power)),
    ]
}

/// Blocks of route 2; parts, p-th powers and spreading of route 3, for a small p: the powers are computed as they are defined.
fn parts(random: &mut Random) -> Vec<String> {
    let (p, n, count) = (random.pick(&PRIMES), random.count(1, 9), random.count(0, 9));
    let (f, length) = (random.list(p, count), random.count(1, 5));
    let (j, from) = (random.count(0, 2), random.count(0, p as usize - 1));
    let block = f.chunks(length).nth(j).unwrap_or(&[]);
    let part: Vec<u32> = f.iter().skip(from).step_by(p as usize).copied().collect();
    let powers: Vec<u32> = f.iter().map(|&c| field::power(p, c, p)).collect();
    let shown = list(&f);
    vec![
        format!("block {length} {j} {shown} ≡ {}", list(block)),
        format!("part {p} {from} {shown} ≡ {}", list(&part)),
        format!("pth_powers {p} {shown} ≡ {}", list(&powers)),
        format!("spread_list {p} {n} {shown} ≡ {}", list(&products::spread(&f, p as usize, n))),
    ]
}

/// A window of a product in two variables, each factor in rows of r places.
fn two_variables(random: &mut Random) -> Vec<String> {
    let (p, r, low, count) =
        (untested(random), random.count(1, 3), random.count(0, 2), random.count(1, 3));
    let [a, b] = [0; 2].map(|_| vec![random.list(p, r), random.list(p, r)]);
    let kept = products::product_in_two_variables(p, &a, &b, r, low..low + count).0;
    let product = format!(
        "cut_product2_at {p} (plane_at {r} {}) (plane_at {r} {})",
        list(&a.concat()),
        list(&b.concat())
    );
    vec![format!("plane {r} {count} (window {low} ({product})) ≡ {}", list(&kept.concat()))]
}

/// a(-x, y), the even powers of x, x² for x; P and Q.
fn rows(random: &mut Random) -> Vec<String> {
    let (p, r) = (untested(random), random.count(1, 5));
    let (row, half) = (random.list(p, r), quotient_rounded_up(r, 2));
    let even: Vec<u32> = row.iter().step_by(2).copied().collect();
    let negated: Vec<u32> = row.iter().map(|&c| field::subtract(p, 0, c)).collect();
    let reversed: Vec<u32> = row.iter().rev().copied().collect();
    let denominator = [products::places(&[1], r), negated].concat();
    let shown = list(&row);
    vec![
        format!(
            "plane {r} 1 (opposite {p} (plane_at {r} {shown})) ≡ {}",
            list(&routes::mirror(p, &row))
        ),
        format!("plane {half} 1 (even_part (plane_at {r} {shown})) ≡ {}", list(&even)),
        format!(
            "plane {} 1 (squared (plane_at {r} {shown})) ≡ {}",
            2 * r,
            list(&products::spread(&row, 2, 2 * r))
        ),
        format!("plane {r} 2 (denominator {p} {shown}) ≡ {}", list(&denominator)),
        format!("numerator {shown} ≡ {}", list(&reversed)),
    ]
}

fn division(random: &mut Random) -> String {
    let (p, count) = (untested(random), random.count(1, 5));
    let (a, mut b) = (random.list(p, count), random.list(p, 3));
    b[0] = 1;
    let quotient = products::quotient(p, &a, &b);
    format!(
        "quotient {p} {count} (coefficient {}) (coefficient {}) ≡ {}",
        list(&a),
        list(&b),
        list(&quotient)
    )
}

fn below(random: &mut Random) -> String {
    let (bound, count) = (20 + random.below(40), random.count(0, 5));
    let found: Vec<u64> = (0..bound).rev().filter(|&q| primes::is_prime(q)).take(count).collect();
    format!("primes_below {count} {bound} ≡ {}", list(&found))
}

fn rendering(random: &mut Random) -> String {
    let (number, n) = (random.below(2) as u32 * 9, random.below(3));
    let places = (n + random.below(4) / 3) as usize;
    let coefficients = random.list(7, places);
    let bytes = render::text(number, n, 5, &coefficients).len();
    let text = (bytes + random.count(0, 2)).saturating_sub(1);
    let refusal = refusals::render(number, n, 5, &coefficients, text);
    format!("render_refusal {number} {n} {places} {bytes} {text} ≡ {refusal}")
}
