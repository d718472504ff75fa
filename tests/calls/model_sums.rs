//! The sums of both memories (document 02, Job 11).
use super::*;

/// "Added modulo 4,294,967,296".
const MODULUS: u64 = 4_294_967_296;

/// "The primary adds pages in rising order". Neither sum changes anything, and no mode refuses one.
pub fn primary_sum(p: &Primary, memory: &[u8]) -> Reply {
    if !p.in_range() || !exact(memory.len(), p.m * p.u) {
        return refused(1);
    }
    accepted(sum_of_pages(memory, p.u, 0..p.m))
}

/// "The standby in the order it visited them; an order not naming each page once gives 1."
pub fn standby_sum(s: &Standby, memory: &[u8], order: &[u64]) -> Reply {
    if !s.in_range() || !exact(memory.len(), s.m * s.u) || !names_each_page_once(order, s.m) {
        return refused(1);
    }
    accepted(sum_of_pages(memory, s.u, order.iter().copied()))
}

/// In rising order, the entries are the pages 0 to M - 1.
fn names_each_page_once(order: &[u64], m: u64) -> bool {
    let mut rising = order.to_vec();
    rising.sort_unstable();
    rising.into_iter().eq(0..m)
}

/// "An image's sum is each byte × (its address + 1)": the address is that in the whole memory. What one page adds is
/// below 2^48.
fn sum_of_pages(memory: &[u8], u: u64, pages: impl Iterator<Item = u64>) -> u64 {
    let mut sum = 0;
    for page in pages {
        let mut added = 0;
        for (offset, &byte) in memory[part(page, u)].iter().enumerate() {
            let address = page * u + offset as u64;
            added += byte as u64 * (address + 1);
        }
        sum = (sum + added) % MODULUS;
    }
    sum
}
