//! The straightforward program: schoolbook products cut at n with a remainder after each term, on
//! numbers of 64 bits, and with them Horner's rule and route 2. It is one source for two forms of
//! the modulus: a number that is known only when the program runs, and a constant to the compiler.

/// The block length of route 2.
const BLOCK_LENGTH: usize = 4;

/// A modulus, below 2^32.
pub trait Modulus: Copy {
    fn value(self) -> u64;
}

/// A modulus that is known when the program runs.
#[derive(Clone, Copy)]
pub struct RunTime(u64);

impl RunTime {
    /// The compiler doesn't see that the number which is read is the one given.
    pub fn new(p: u64) -> RunTime {
        // SAFETY: the place read is that of the argument.
        RunTime(unsafe { std::ptr::read_volatile(&p) })
    }
}

impl Modulus for RunTime {
    #[inline(always)]
    fn value(self) -> u64 {
        self.0
    }
}

/// A modulus that is a constant to the compiler.
#[derive(Clone, Copy)]
pub struct Constant<const P: u64>;

impl<const P: u64> Modulus for Constant<P> {
    #[inline(always)]
    fn value(self) -> u64 {
        P
    }
}

/// a·b modulo x^n, for lists of n places.
fn product<M: Modulus>(p: M, a: &[u64], b: &[u64]) -> Vec<u64> {
    let mut value = vec![0; a.len()];
    for (i, &x) in a.iter().enumerate() {
        for (place, &y) in value[i..].iter_mut().zip(b) {
            *place = (*place + x * y) % p.value();
        }
    }
    value
}

/// Horner's rule: from the top coefficient, multiply by g and add the next.
fn horner<M: Modulus>(p: M, f: &[u32], g: &[u64]) -> Vec<u64> {
    let mut value = vec![0; g.len()];
    let mut coefficients = f.iter().rev();
    if let Some(&top) = coefficients.next() {
        value[0] = u64::from(top);
    }
    for &next in coefficients {
        value = product(p, &value, g);
        value[0] = (value[0] + u64::from(next)) % p.value();
    }
    value
}

/// even + odd·G for each pair of neighbours; a last one without partner passes on.
fn joined<M: Modulus>(p: M, values: &[Vec<u64>], power: &[u64]) -> Vec<Vec<u64>> {
    let join = |pair: &[Vec<u64>]| match pair {
        [even, odd] => {
            let multiplied = product(p, odd, power);
            even.iter().zip(&multiplied).map(|(&x, &y)| (x + y) % p.value()).collect()
        }
        _ => pair[0].clone(),
    };
    values.chunks(2).map(join).collect()
}

/// Blocks of f by Horner's rule, then neighbours joined with G = g^4, G^2, G^4 and so on.
fn ranged<M: Modulus>(p: M, f: &[u32], g: &[u64]) -> Vec<u64> {
    let mut values: Vec<Vec<u64>> =
        f.chunks(BLOCK_LENGTH).map(|block| horner(p, block, g)).collect();
    let square = product(p, g, g);
    let mut power = product(p, &square, &square);
    while values.len() > 1 {
        values = joined(p, &values, &power);
        if values.len() > 1 {
            power = product(p, &power, &power);
        }
    }
    values.pop().unwrap_or_else(|| vec![0; g.len()])
}

/// The list as n places of 64 bits.
fn wide(list: &[u32], n: usize) -> Vec<u64> {
    let mut value: Vec<u64> = list.iter().take(n).map(|&place| u64::from(place)).collect();
    value.resize(n, 0);
    value
}

fn narrow(list: Vec<u64>) -> Vec<u32> {
    list.into_iter().map(|place| place as u32).collect()
}

/// f(g) modulo x^n by route 1.
pub fn by_horner<M: Modulus>(p: M, f: &[u32], g: &[u32], n: usize) -> Vec<u32> {
    narrow(horner(p, f, &wide(g, n)))
}

/// f(g) modulo x^n by route 2.
pub fn by_ranged<M: Modulus>(p: M, f: &[u32], g: &[u32], n: usize) -> Vec<u32> {
    narrow(ranged(p, f, &wide(g, n)))
}
