//! The sorts of orders that sums at the standby were given (document 02, Job 11).
use std::collections::BTreeSet;

/// Orders of a standby in range whose memory is right: the first four are accepted.
pub const ORDERS: [&str; 16] = [
    "0, rising, of several pages",
    "0, falling, of several pages",
    "0, another order",
    "0, M 1",
    "1, empty",
    "1, one page is missing, and the others are named once",
    "1, each page once, and one again behind them",
    "1, each page once, and M behind them",
    "1, M entries, all of them pages, of which one repeats",
    "1, M entries, all of them pages, of which two repeat",
    "1, M entries, all different, of which one is M",
    "1, M entries, all different, of which one is above M and below 65,536",
    "1, M entries, which name each page once when cut to 16 bits",
    "1, M entries, which name each page once when cut to 32 bits",
    "1, M entries, all different, of which one is 2^64 - 1",
    "1, M 1, and not empty",
];

/// "Naming each page once": as many entries as pages, all of them pages, all different.
pub fn names_each_once(order: &[u64], m: u64) -> bool {
    let different: BTreeSet<u64> = order.iter().copied().collect();
    order.len() as u64 == m && different.len() as u64 == m && different.last().is_none_or(|&last| last < m)
}

/// Which of `ORDERS` this one is.
pub fn order_sorts(order: &[u64], m: u64) -> [bool; ORDERS.len()] {
    let different: BTreeSet<u64> = order.iter().copied().collect();
    let (count, several) = (order.len() as u64, m > 1);
    let right = names_each_once(order, m);
    let (rising, falling) = (order.is_sorted(), order.is_sorted_by(|one, next| one >= next));
    let all_pages = different.last().is_some_and(|&last| last < m);
    let all_different = different.len() as u64 == count;
    // the first M entries name each page once, and one entry more is given
    let behind = order.split_last().filter(|(_, first)| names_each_once(first, m)).map(|(&last, _)| last);
    // M entries of which one is no page, and the others are different pages
    let no_page = different.last().copied().filter(|_| count == m && all_different && pages_of(&different, m) == m - 1);
    let cut = |bits: u64| {
        let cut: Vec<u64> = order.iter().map(|&entry| entry & ((1 << bits) - 1)).collect();
        !right && names_each_once(&cut, m)
    };
    [
        right && several && rising,
        right && several && falling,
        right && !rising && !falling,
        right && !several,
        count == 0,
        count + 1 == m && all_different && all_pages,
        behind.is_some_and(|last| last < m),
        behind == Some(m),
        several && count == m && all_pages && different.len() as u64 == m - 1,
        several && count == m && all_pages && different.len() as u64 == m - 2,
        no_page == Some(m),
        no_page.is_some_and(|entry| m < entry && entry < 65_536),
        cut(16),
        cut(32),
        no_page == Some(u64::MAX),
        !right && !several && count > 0,
    ]
}

/// How many of these are pages of M.
fn pages_of(entries: &BTreeSet<u64>, m: u64) -> u64 {
    entries.range(..m).count() as u64
}
