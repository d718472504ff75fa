//! Packets of four ports (document 02, Job 6): takes whose numbers are written beside them, ports above the last, the
//! ranges of the packets held; and the lists of port_lists.rs. What a take leaves of the packets and of the held bytes
//! is worked out here, beside the model.
use crate::arguments::{fresh_world, NO_PORTS};
use crate::checker::{demand, Check};
use crate::items::code;
use crate::model::*;
use crate::port_lists;
use crate::random::Random;
use crate::sink::Sink;
use crate::world::{Args, World};

/// The epochs of every primary here: those up to 3 are acknowledged.
const OPEN: u32 = 5;
const ACKNOWLEDGED: u32 = 3;
/// A byte of a destination that no packet has filled.
const FILLER: u8 = 0xc3;

/// A packet as it is written here: its epoch, its port and its length.
type Sent = (u32, u16, u64);

/// A take: what is held, whether the primary is alone, the port, the destination's length; then the number, and where
/// it is accepted the place of the packet handed out.
type Taking = (&'static [Sent], bool, u64, usize, u64, usize);

const TAKES: [Taking; 27] = [
    // no packet of the port, and other ports' may leave
    (&[(1, 0, 10), (2, 1, 20), (3, 0, 5)], false, 2, 60, 18, 0),
    (&[(1, 0, 10), (2, 1, 20), (3, 0, 5)], true, 3, 60, 18, 0),
    (&[(1, 3, 10)], false, 0, 60, 18, 0),
    (&[], true, 0, 60, 18, 0),
    // the port's oldest is not acknowledged, and an older one of another port is
    (&[(3, 0, 10), (4, 1, 20)], false, 1, 60, 18, 0),
    (&[(3, 0, 10), (4, 1, 20)], false, 0, 60, 0, 0),
    (&[(3, 0, 10), (4, 1, 20)], true, 1, 60, 0, 1),
    (&[(3, 2, 1), (4, 0, 2), (4, 2, 3)], false, 0, 60, 18, 0),
    (&[(3, 2, 1), (4, 0, 2), (4, 2, 3)], false, 2, 60, 0, 0),
    // the port's own first packet is acknowledged, and its next is not
    (&[(1, 1, 4), (3, 1, 5), (4, 1, 6), (4, 0, 7)], false, 1, 60, 0, 0),
    (&[(4, 1, 6), (4, 0, 7), (5, 1, 8)], false, 1, 60, 18, 0),
    // an acknowledged packet behind those of other ports
    (&[(1, 0, 10), (1, 0, 11), (2, 2, 7), (3, 1, 9), (3, 2, 8)], false, 2, 60, 0, 2),
    (&[(1, 0, 10), (1, 0, 11), (2, 2, 7), (3, 1, 9), (3, 2, 8)], false, 1, 60, 0, 3),
    (&[(1, 0, 10), (2, 1, 20), (3, 3, 30)], false, 3, 60, 0, 2),
    (&[(4, 0, 10), (5, 1, 20), (5, 3, 30)], true, 3, 60, 0, 2),
    // room for another port's packet and not for this one, and the other way round
    (&[(1, 0, 10), (1, 1, 30)], false, 1, 10, 5, 0),
    (&[(1, 0, 10), (1, 1, 30)], false, 1, 29, 5, 0),
    (&[(1, 0, 10), (1, 1, 30)], false, 1, 30, 0, 1),
    (&[(1, 0, 10), (1, 1, 30)], false, 0, 10, 0, 0),
    (&[(1, 0, 30), (1, 1, 10)], false, 1, 10, 0, 1),
    (&[(1, 0, 30), (1, 1, 10)], false, 1, 9, 5, 0),
    (&[(1, 0, 30), (1, 1, 10)], false, 0, 29, 5, 0),
    (&[(1, 0, 30), (1, 1, 10)], true, 0, 30, 0, 0),
    // 23 before 18, and 18 before 5
    (&[], false, 4, 60, 23, 0),
    (&[(4, 2, 10)], false, 4, 0, 23, 0),
    (&[(4, 2, 10)], false, 2, 0, 18, 0),
    (&[(3, 2, 10)], false, 2, 0, 5, 0),
];

pub fn run(r: &Random, sink: &mut Sink) -> Check {
    for case in TAKES {
        take(r, sink, case).map_err(|what| format!("{case:?}: {what}"))?;
    }
    (0..=MOST_PORT).chain(NO_PORTS).try_for_each(|port| every_refusal(r, sink, port))?;
    (0..64).try_for_each(|at| entry(r, sink, at))?;
    epochs_of_all_ports(r, sink)?;
    port_lists::run(r, sink)
}

/// A primary that holds these, and its buffer with some bytes to spare.
fn holding(r: &Random, sent: &[Sent], alone: bool) -> World {
    let held = sent.iter().map(|packet| packet.2).sum::<u64>();
    let (u, m, t) = (64, 1, 2);
    let settings = Settings { u, m, d: 0, b: 0, s: 0, q: held + 20, l: least_stream(u, m, 0), t };
    let mut w = fresh_world(r, &settings);
    w.primary = Primary {
        u, m, q: settings.q, l: settings.l, t, count: if alone { t } else { 0 }, open: OPEN, acknowledged: ACKNOWLEDGED,
        alone, packets: sent.len() as u64, held, ..Primary::zero()
    };
    for (entry, &(epoch, port, length)) in w.primary.queue.iter_mut().zip(sent) {
        *entry = Packet { epoch, port, length };
    }
    w
}

/// One call, which must give this number.
fn numbered(sink: &mut Sink, w: &mut World, which: usize, a: &mut Args, number: u64) -> Result<Reply, String> {
    let reply = sink.call(which, w, a);
    if reply.number == number {
        return Ok(reply);
    }
    Err(format!("code {which}, port {}: {} and not {number}", a.port, reply.number))
}

/// One take of the table. The bytes in front of the packet stay, those behind it close up, and those from the new total
/// on are as they were.
fn take(r: &Random, sink: &mut Sink, (sent, alone, port, room, number, place): Taking) -> Check {
    let mut w = holding(r, sent, alone);
    let (before, mut a) = (w.clone(), Args { port, out: vec![FILLER; room], ..Args::none() });
    let reply = numbered(sink, &mut w, code::TAKE, &mut a, number)?;
    if number != 0 {
        let same = w == before && a.out.iter().all(|&byte| byte == FILLER) && reply.value == 0;
        return demand(same, "a refused take changes something");
    }
    let at = sent[..place].iter().map(|packet| packet.2 as usize).sum::<usize>();
    let (length, total) = (sent[place].2 as usize, before.primary.held as usize);
    let out = [&before.held[at..at + length], &vec![FILLER; room - length]].concat();
    demand(reply.value == length as u64 && a.out == out, "another packet is handed out")?;
    let held = [&before.held[..at], &before.held[at + length..total], &before.held[total - length..]].concat();
    demand(w.held == held, "the held bytes are others")?;
    let left = [&sent[..place], &sent[place + 1..]].concat();
    let wanted = holding(r, &left, alone).primary;
    demand(w.primary == Primary { q: before.primary.q, ..wanted }, "the packets left are others")
}

/// Every refusal of a packet and of a take with one port: 23 stands directly after 4, and in a take after 1.
fn every_refusal(r: &Random, sink: &mut Sink, port: u64) -> Check {
    let instead = |number: u64| if port > MOST_PORT { 23 } else { number };
    let free: Vec<Sent> = (0..4).map(|port| (1, port, 30)).collect();
    let waiting: Vec<Sent> = (0..4).map(|port| (OPEN, port, 30)).collect();
    let full = vec![(1, 0, 1); 64];
    for (sent, length, number) in [
        (&free, 20, instead(0)), (&free, 21, instead(16)), (&full, 1, instead(16)), (&full, 0, 4), (&free, 1_515, 4),
    ] {
        let mut a = Args { port, data: r.bytes(length), ..Args::none() };
        let before = holding(r, sent, false);
        let reply = numbered(sink, &mut before.clone(), code::PACKET, &mut a, number)?;
        demand(reply.value == if number == 0 { 5 } else { 0 }, "the value is not the packets held, of all ports")?;
        wrong_length(sink, before, code::PACKET, a)?;
    }
    for (sent, room, number) in [(&free, 30, instead(0)), (&free, 29, instead(5)), (&waiting, 0, instead(18))] {
        let a = Args { port, out: vec![FILLER; room], ..Args::none() };
        let before = holding(r, sent, false);
        numbered(sink, &mut before.clone(), code::TAKE, &mut a.clone(), number)?;
        wrong_length(sink, before, code::TAKE, a)?;
    }
    Ok(())
}

/// The same call where the held bytes are one too many: 1 comes first.
fn wrong_length(sink: &mut Sink, mut w: World, which: usize, mut a: Args) -> Check {
    w.held.push(FILLER);
    numbered(sink, &mut w, which, &mut a, 1).map(|_| ())
}

/// One of 64 entries: its port and its length are in range where it is held, and may be anything else where it is not.
fn entry(r: &Random, sink: &mut Sink, at: usize) -> Check {
    let sent: Vec<Sent> = (0..64).map(|i| (1 + i / 32, (i * 7 % 4) as u16, 1)).collect();
    let all = holding(r, &sent, false);
    for port in [0, 3, 4, 5, 255, 256, 257, 65_535] {
        let mut w = all.clone();
        w.primary.queue[at].port = port;
        let of_state = |number: u64| if port > 3 { 1 } else { number };
        let mut to_take = Args { port: sent[at ^ 1].1 as u64, out: vec![FILLER], ..Args::none() };
        let mut to_send = Args { data: vec![1], ..Args::none() };
        numbered(sink, &mut w.clone(), code::PRIMARY_TICK, &mut Args::none(), of_state(0))?;
        numbered(sink, &mut w.clone(), code::PACKET, &mut to_send, of_state(16))?;
        numbered(sink, &mut w, code::TAKE, &mut to_take, of_state(0))?;
    }
    let mut w = all.clone();
    (w.primary.queue[at].length, w.primary.q, w.primary.held) = (65_535, 32_768, 63 + 65_535);
    numbered(sink, &mut w, code::PRIMARY_TICK, &mut Args::none(), 1)?;
    not_held(r, sink, &sent[..at])
}

/// The entries behind these packets have the largest numbers that their fields hold: they are no part of the state's
/// range, and a call leaves those behind the new or the freed one as they are.
fn not_held(r: &Random, sink: &mut Sink, sent: &[Sent]) -> Check {
    const WILD: Packet = Packet { epoch: u32::MAX, port: u16::MAX, length: u16::MAX as u64 };
    let (mut w, count) = (holding(r, sent, false), sent.len());
    w.primary.queue[count..].fill(WILD);
    numbered(sink, &mut w, code::PRIMARY_TICK, &mut Args::none(), 0)?;
    numbered(sink, &mut w, code::PACKET, &mut Args { port: 2, data: vec![1], ..Args::none() }, 0)?;
    demand(w.primary.queue[count] == Packet { epoch: OPEN, port: 2, length: 1 }, "the packet's entry is another")?;
    demand(w.primary.queue[count + 1..].iter().all(|entry| *entry == WILD), "a packet changes entries behind it")?;
    if let Some(first) = sent.first() {
        let mut a = Args { port: first.1 as u64, out: vec![FILLER], ..Args::none() };
        numbered(sink, &mut w, code::TAKE, &mut a, 0)?;
        demand(w.primary.queue[count] == Packet::default(), "the freed entry is not zero")?;
    }
    demand(w.primary.queue[count + 1..].iter().all(|entry| *entry == WILD), "a take changes entries behind it")
}

/// "Packet epochs falling": over all ports together, though no port's by itself fall.
fn epochs_of_all_ports(r: &Random, sink: &mut Sink) -> Check {
    for (sent, number) in [
        (&[(2, 0, 5), (1, 1, 5)][..], 1),
        (&[(1, 0, 5), (3, 1, 5), (2, 0, 5), (3, 1, 5)], 1),
        (&[(1, 0, 5), (2, 1, 5), (2, 0, 5), (3, 1, 5)], 0),
    ] {
        for port in [0, 1] {
            let mut a = Args { port, out: vec![FILLER; 9], ..Args::none() };
            numbered(sink, &mut holding(r, sent, false), code::TAKE, &mut a, number)?;
        }
    }
    Ok(())
}
