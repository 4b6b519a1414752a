//! The calls of the static library.

use crate::checks::library::Library;
use crate::plain::calls::Answer;
use crate::plain::chain::Chain;

#[repr(C)]
struct CallAnswer {
    number: u32,
    weight: u64,
}

#[repr(C)]
struct PrimeAnswer {
    number: u32,
    prime: u32,
}

#[repr(C)]
struct TextAnswer {
    number: u32,
    count: usize,
}

#[repr(C)]
struct ChainRecord {
    modulus: u32,
    order: usize,
    done: u32,
}

/// The answer of an opening and of a cycle.
#[repr(C)]
struct ChainAnswer {
    number: u32,
    weight: u64,
    chain: ChainRecord,
}

// A list passes as its pointer and its count.
extern "C" {
    fn ruhitapo_compose(
        route: u32,
        p: u32,
        n: usize,
        f: *const u32,
        f_count: usize,
        g: *const u32,
        g_count: usize,
        out: *mut u32,
        out_count: usize,
        work: *mut u32,
        work_count: usize,
    ) -> CallAnswer;

    fn ruhitapo_compose_blocks(
        route: u32,
        block: usize,
        p: u32,
        n: usize,
        f: *const u32,
        f_count: usize,
        g: *const u32,
        g_count: usize,
        out: *mut u32,
        out_count: usize,
        work: *mut u32,
        work_count: usize,
    ) -> CallAnswer;

    fn ruhitapo_reverse(
        p: u32,
        n: usize,
        g: *const u32,
        g_count: usize,
        out: *mut u32,
        out_count: usize,
        work: *mut u32,
        work_count: usize,
    ) -> CallAnswer;

    fn ruhitapo_prime(index: u32) -> PrimeAnswer;

    fn ruhitapo_render(
        number: u32,
        n: usize,
        weight: u64,
        list: *const u32,
        list_count: usize,
        text: *mut u8,
        text_count: usize,
    ) -> TextAnswer;

    fn ruhitapo_open(p: u32, n: usize, running: *mut u32, running_count: usize) -> ChainAnswer;

    fn ruhitapo_cycle_numbers(
        modulus: u32,
        order: usize,
        done: u32,
        route: u32,
        list: *const u32,
        list_count: usize,
        running: *mut u32,
        running_count: usize,
        work: *mut u32,
        work_count: usize,
    ) -> ChainAnswer;

    fn ruhitapo_cycle_blocks_numbers(
        modulus: u32,
        order: usize,
        done: u32,
        route: u32,
        block: usize,
        list: *const u32,
        list_count: usize,
        running: *mut u32,
        running_count: usize,
        work: *mut u32,
        work_count: usize,
    ) -> ChainAnswer;
}

/// The linked library.
pub struct Linked;

// SAFETY of each call: a list passes as its pointer and its count, and no two of them overlap.
impl Library for Linked {
    fn compose(
        route: u64,
        block: Option<u64>,
        p: u64,
        n: u64,
        f: &[u32],
        g: &[u32],
        out: &mut [u32],
        work: &mut [u32],
    ) -> Answer {
        let (route, p, n) = (word(route), word(p), n as usize);
        let (f, f_count, g, g_count) = (f.as_ptr(), f.len(), g.as_ptr(), g.len());
        let (out_count, work_count) = (out.len(), work.len());
        let (out, work) = (out.as_mut_ptr(), work.as_mut_ptr());
        answer(match block.map(length) {
            None => unsafe {
                ruhitapo_compose(
                    route, p, n, f, f_count, g, g_count, out, out_count, work, work_count,
                )
            },
            Some(block) => unsafe {
                ruhitapo_compose_blocks(
                    route, block, p, n, f, f_count, g, g_count, out, out_count, work, work_count,
                )
            },
        })
    }

    fn reverse(p: u64, n: u64, g: &[u32], out: &mut [u32], work: &mut [u32]) -> Answer {
        let (p, n, g, g_count) = (word(p), n as usize, g.as_ptr(), g.len());
        let (out_count, work_count) = (out.len(), work.len());
        let (out, work) = (out.as_mut_ptr(), work.as_mut_ptr());
        answer(unsafe { ruhitapo_reverse(p, n, g, g_count, out, out_count, work, work_count) })
    }

    fn open(p: u64, n: u64, running: &mut [u32]) -> (Chain, Answer) {
        let (p, n, count) = (word(p), n as usize, running.len());
        chain(unsafe { ruhitapo_open(p, n, running.as_mut_ptr(), count) })
    }

    fn cycle(
        record: Chain,
        route: u64,
        block: Option<u64>,
        list: &[u32],
        running: &mut [u32],
        work: &mut [u32],
    ) -> (Chain, Answer) {
        let (p, n, done) = (word(record.modulus), record.order as usize, word(record.done));
        let (route, list, list_count) = (word(route), list.as_ptr(), list.len());
        let (count, work_count) = (running.len(), work.len());
        let (running, work) = (running.as_mut_ptr(), work.as_mut_ptr());
        chain(match block.map(length) {
            None => unsafe {
                ruhitapo_cycle_numbers(
                    p, n, done, route, list, list_count, running, count, work, work_count,
                )
            },
            Some(block) => unsafe {
                ruhitapo_cycle_blocks_numbers(
                    p, n, done, route, block, list, list_count, running, count, work, work_count,
                )
            },
        })
    }

    fn table(index: u64) -> (u32, u32) {
        let PrimeAnswer { number, prime } = unsafe { ruhitapo_prime(word(index)) };
        (number, prime)
    }

    fn render(number: u32, n: u64, weight: u64, list: &[u32], text: &mut [u8]) -> (u32, u64) {
        let (n, list, list_count) = (n as usize, list.as_ptr(), list.len());
        let (text_count, text) = (text.len(), text.as_mut_ptr());
        let found =
            unsafe { ruhitapo_render(number, n, weight, list, list_count, text, text_count) };
        (found.number, found.count as u64)
    }
}

fn word(number: u64) -> u32 {
    u32::try_from(number).expect("a number of 32 bits")
}

fn length(block: u64) -> usize {
    usize::try_from(block).expect("a length of 64 bits")
}

fn answer(found: CallAnswer) -> Answer {
    Answer { number: found.number, weight: found.weight }
}

fn chain(found: ChainAnswer) -> (Chain, Answer) {
    let ChainRecord { modulus, order, done } = found.chain;
    let record = Chain { modulus: modulus.into(), order: order as u64, done: done.into() };
    (record, Answer { number: found.number, weight: found.weight })
}
