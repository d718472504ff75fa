//! Start and the disk choice.
use super::*;

/// Every buffer of both ends, as start takes them.
pub struct Lent<'a> {
    pub memory: &'a mut [u8],
    pub disk: &'a mut [u8],
    pub marks: &'a mut [u64],
    pub held: &'a mut [u8],
    pub stream: &'a mut [u8],
    pub standby_memory: &'a mut [u8],
    pub standby_disk: &'a mut [u8],
    pub pages: &'a mut [u8],
    pub standby_marks: &'a mut [u64],
    pub blocks: &'a mut [u8],
    pub area: &'a mut [u8],
}

/// Start: the states of both ends, and 0 or 1.
pub fn start(s: &Settings, cpu: &[u8; 64], lent: &mut Lent) -> (u64, Primary, Standby) {
    if !start_in_range(s, lent) {
        return (1, Primary::zero(), Standby::zero());
    }
    lent.standby_memory.copy_from_slice(lent.memory);
    lent.standby_disk.copy_from_slice(lent.disk);
    clear_marks(lent.marks, s.m);
    clear_marks(lent.standby_marks, s.m);
    lent.area.fill(0);
    let primary = Primary {
        u: s.u, m: s.m, d: s.d, b: s.b, q: s.q, l: s.l, t: s.t, open: 1, ..Primary::zero()
    };
    // The processor state goes to the kept one; 01 leaves the staged one open, and nothing is staged yet.
    let standby = Standby { u: s.u, m: s.m, d: s.d, b: s.b, s: s.s, t: s.t, kept_cpu: *cpu, ..Standby::zero() };
    (0, primary, standby)
}

fn start_in_range(s: &Settings, lent: &Lent) -> bool {
    sizes_in_range(s.u, s.m, s.d, s.b, s.t)
        && s.s >= s.b
        && s.s <= 64
        && s.q <= 32_768
        && s.l >= least_stream(s.u, s.m, s.b)
        && s.l <= MOST_STREAM
        && exact(lent.memory.len(), s.m * s.u)
        && exact(lent.disk.len(), s.d * s.u)
        && exact(lent.marks.len(), mark_words(s.m))
        && exact(lent.held.len(), s.q)
        && exact(lent.stream.len(), s.l)
        && exact(lent.standby_memory.len(), s.m * s.u)
        && exact(lent.standby_disk.len(), s.d * s.u)
        && exact(lent.pages.len(), s.m * s.u)
        && exact(lent.standby_marks.len(), mark_words(s.m))
        && exact(lent.blocks.len(), s.s * s.u)
        && exact(lent.area.len(), 8)
}

/// The disk choice: 0, 1 or 12, and the chosen disk itself.
pub fn disk_choice<'a>(primary: &'a [u8], standby: &'a [u8], area: &[u8]) -> (u64, &'a [u8]) {
    if primary.len() != standby.len() || area.len() != 8 {
        return (1, &primary[..0]);
    }
    if area.iter().all(|&byte| byte == 0) {
        (0, primary)
    } else if area[..4] == [4, 0, 6, 0] {
        (0, standby)
    } else {
        (12, &primary[..0])
    }
}
