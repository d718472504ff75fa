//! Records for a standby of either width, on buffers that both sides keep: every refusal at one place of a run, the
//! kinds that M does not call for, counts that are wrong only when they are read whole, and records made up at random.
use crate::arguments::arguments;
use crate::checker::{demand, Check};
use crate::items::code;
use crate::large::Pair;
use crate::made_up::record;
use crate::model::*;
use crate::refused_records::{by_header, whole};
use crate::states::any_standby;
use crate::world::Args;

/// A read of these bytes gives this number and changes nothing of the standby and of the reply.
fn refused(pair: &mut Pair, number: u64, data: Vec<u8>, reply: usize) -> Check {
    let (before, out) = (pair.w.standby.clone(), pair.r.bytes(reply as u64));
    let told = format!("{} bytes {:02x?}", data.len(), &data[..data.len().min(16)]);
    let mut a = Args { data, out: out.clone(), ..Args::none() };
    let answer = pair.step(code::READ, &mut a)?;
    if answer.number != number {
        return Err(format!("{told}: {} and not {number}", answer.number));
    }
    demand(answer.value == 0 && answer.used == 0 && answer.missing == 0, "a refusal has a value")?;
    demand(pair.w.standby == before && a.out == out, "a refused record changes something")
}

/// Every refusal that a read can give at this place.
pub fn refusals(pair: &mut Pair) -> Check {
    let s = pair.w.standby.clone();
    by_header(&s).into_iter().chain(whole(&s)).try_for_each(|bad| refused(pair, bad.number, bad.data, bad.reply))
}

/// "A standby reads only the kinds that its M calls for; the others give 6": whatever length the header says, and
/// whatever follows it.
pub fn other_kinds(pair: &mut Pair) -> Check {
    let (u, read) = (pair.w.standby.u, if pair.w.standby.m > 4_096 { [8, 2, 3, 9] } else { [1, 2, 3, 4] });
    let kinds = (0..=12).chain([255, 256, 257, 260, 264, 265, 2_048, 65_535]);
    for kind in kinds.filter(|kind| !read.contains(kind)) {
        for length in [0, 4, 8, 12, 68, u + 6, u + 8, 65_535] {
            let header = record(length, kind, 0, &[])[..4].to_vec();
            for follow in [0, 1, 8, 12, u + 6, u + 8, u + 200] {
                refused(pair, 6, [header.clone(), pair.r.bytes(follow)].concat(), 8)?;
            }
        }
    }
    pair.whole()
}

/// Before a COMMIT that is right: counts that are wrong by one, in one byte, or only above their two low bytes; and the
/// count of different blocks, where the records are more.
pub fn wrong_counts(pair: &mut Pair) -> Check {
    let s = pair.w.standby.clone();
    demand(s.state_seen, "no COMMIT can come here")?;
    let (kind, width) = if s.m > 4_096 { (9, 4) } else { (4, 2) };
    let most = if s.m > 4_096 { 1 << 32 } else { 1 << 16 };
    for (at, right) in [(0, s.pages), (1, s.records)] {
        let near = [right + 1, right.wrapping_sub(1), right ^ 256, right + 65_536, right ^ 65_536, right | 1 << 31];
        let near = near.into_iter().chain([0, s.blocks]);
        for wrong in near.filter(|&wrong| wrong != right && wrong < most) {
            let counts = if at == 0 { [wrong, s.records] } else { [s.pages, wrong] };
            let body = counts.map(|count| count.to_le_bytes()[..width].to_vec()).concat();
            refused(pair, 10, record(4 + body.len() as u64, kind, s.received + 1, &body), 8)?;
        }
    }
    Ok(())
}

/// Records made up for standbys of every sort, with fields of every sort wrong.
pub fn made_up(mut pair: Pair, count: u64) -> Check {
    let Standby { u, m, d, b, s, t, .. } = pair.w.standby;
    let settings = Settings { u, m, d, b, s, q: 0, l: pair.w.primary.l, t };
    for _ in 0..count {
        pair.set_standby(any_standby(pair.r, &settings, code::READ));
        let odd = pair.r.pick(&[0, 5, 15, 30]);
        let mut a = arguments(pair.r, code::READ, &pair.w, odd);
        pair.step(code::READ, &mut a)?;
    }
    pair.whole()
}
