//! Composition, reversion and cut products by FLINT, as flint.c hands them on; None where it is not
//! installed.

use std::os::raw::c_int;

// A list passes as its pointer and its count; the output has n places.
extern "C" {
    fn flint_compose(
        p: u32,
        n: usize,
        f: *const u32,
        f_count: usize,
        g: *const u32,
        g_count: usize,
        out: *mut u32,
    ) -> c_int;

    fn flint_reverse(p: u32, n: usize, g: *const u32, g_count: usize, out: *mut u32) -> c_int;

    fn flint_horner(
        p: u32,
        n: usize,
        f: *const u32,
        f_count: usize,
        g: *const u32,
        g_count: usize,
        out: *mut u32,
    ) -> c_int;
}

/// f(g) modulo x^n, where g has constant term 0.
pub fn compose(p: u32, f: &[u32], g: &[u32], n: usize) -> Option<Vec<u32>> {
    let mut out = vec![0; n];
    let (f, f_count, g, g_count) = (f.as_ptr(), f.len(), g.as_ptr(), g.len());
    // SAFETY: each pointer comes with its count, and the output has n places.
    let answered = unsafe { flint_compose(p, n, f, f_count, g, g_count, out.as_mut_ptr()) };
    (answered != 0).then_some(out)
}

/// The reverse of g at order n.
pub fn reverse(p: u32, g: &[u32], n: usize) -> Option<Vec<u32>> {
    let mut out = vec![0; n];
    // SAFETY: as in compose.
    let answered = unsafe { flint_reverse(p, n, g.as_ptr(), g.len(), out.as_mut_ptr()) };
    (answered != 0).then_some(out)
}

/// f(g) modulo x^n by Horner's rule with cut products, for f that is not empty.
pub fn horner(p: u32, f: &[u32], g: &[u32], n: usize) -> Option<Vec<u32>> {
    assert!(!f.is_empty());
    let mut out = vec![0; n];
    let (f, f_count, g, g_count) = (f.as_ptr(), f.len(), g.as_ptr(), g.len());
    // SAFETY: as in compose.
    let answered = unsafe { flint_horner(p, n, f, f_count, g, g_count, out.as_mut_ptr()) };
    (answered != 0).then_some(out)
}
