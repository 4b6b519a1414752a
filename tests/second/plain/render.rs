//! The printed answer: its text, and the call that writes it into a lent text buffer.

use super::refusals;

/// `no ` and the number when it is not 0; otherwise `ok `, the order and the weight, and on the
/// second line the coefficients.
pub fn text(number: u32, n: u64, weight: u64, list: &[u32]) -> Vec<u8> {
    if number != 0 {
        return [b"no ", digits(u64::from(number)).as_slice(), b"\n"].concat();
    }
    let coefficients: Vec<Vec<u8>> = list.iter().map(|&c| digits(u64::from(c))).collect();
    let order = digits(n);
    let lead = [b"ok ", order.as_slice(), b" ", digits(weight).as_slice(), b"\n"].concat();
    [lead, coefficients.join(&b' '), b"\n".to_vec()].concat()
}

/// The decimal digits, without leading zeros.
pub fn digits(number: u64) -> Vec<u8> {
    let mut reversed = vec![b'0' + (number % 10) as u8];
    let mut rest = number / 10;
    while rest > 0 {
        reversed.push(b'0' + (rest % 10) as u8);
        rest /= 10;
    }
    reversed.reverse();
    reversed
}

/// Writes the text from place 0 of the buffer; the number and the count of bytes, 0 if refused.
pub fn render(number: u32, n: u64, weight: u64, list: &[u32], buffer: &mut [u8]) -> (u32, u64) {
    let refusal = refusals::render(number, n, weight, list, buffer.len());
    if refusal != 0 {
        return (refusal, 0);
    }
    let bytes = text(number, n, weight, list);
    buffer[..bytes.len()].copy_from_slice(&bytes);
    (0, bytes.len() as u64)
}
