//! Division of counts.

use std::ops::{Add, Div, Mul};

/// a/b, rounded up.
pub fn quotient_rounded_up<T>(a: T, b: T) -> T
where
    T: Copy + PartialEq + From<bool> + Add<Output = T> + Mul<Output = T> + Div<Output = T>,
{
    let rounded_down = a / b;
    rounded_down + T::from(rounded_down * b != a)
}
