//! Lists of calls with packets of all ports, with the plain pair beside them: limits that the ports share, takes from
//! behind 63 packets of another port, and lists at random. both.rs checks that each take gave its port's oldest packet
//! and that a packet which left under protection is one of checkpoint r's, after that call and every later one.
use crate::both::Both;
use crate::checker::{demand, Check};
use crate::generate::{next_step, packets_mood, Step};
use crate::items::code;
use crate::model::*;
use crate::random::Random;
use crate::silence::{accepted, checkpoint, drain, read};
use crate::sink::Sink;
use crate::world::Args;

/// Lists at random.
const LISTS: u64 = 400;
/// The places of the one packet among 63 others.
const PLACES: [usize; 3] = [0, 31, 63];

#[derive(Default)]
struct Tally {
    /// Takes by port, under protection and alone.
    takes: [[u64; PORTS]; 2],
}

pub fn run(r: &Random, sink: &mut Sink) -> Check {
    sixty_four_packets(r, sink)?;
    bytes_of_all_ports(r, sink)?;
    for (one, others) in (0..=MOST_PORT).flat_map(|one| (0..=MOST_PORT).map(move |others| (one, others))) {
        if one != others {
            PLACES.into_iter().try_for_each(|place| among_others(r, sink, one, others, place))?;
        }
    }
    let mut tally = Tally::default();
    for _ in 0..LISTS {
        list(r, sink, &mut tally)?;
    }
    let [protected, alone] = tally.takes;
    println!("  {LISTS} lists; takes by port under protection {protected:?}, alone {alone:?}");
    demand(protected.iter().chain(&alone).all(|&count| count > 0), "a port had no take under protection, or none alone")
}

fn started(r: &Random, sink: &mut Sink, q: u64) -> Both {
    let (u, m, b) = (64, 2, 1);
    let l = least_stream(u, m, b) + r.pick(&[0, 200]);
    Both::start(r, sink, Settings { u, m, d: 2, b, s: 2, q, l, t: r.range(2, 4) })
}

/// A packet of so many bytes, which must give this number; where it is accepted its value is the packets held.
fn send(r: &Random, sink: &mut Sink, both: &mut Both, port: u64, length: u64, number: u64) -> Check {
    let held = both.world.primary.packets;
    let reply = both.call(sink, code::PACKET, Args { port, data: r.bytes(length), ..Args::none() })?;
    let value = if number == 0 { held + 1 } else { 0 };
    demand(reply.number == number && reply.value == value, "a packet's number or value is another")
}

/// A take into room for any packet, which must give this number.
fn take(sink: &mut Sink, both: &mut Both, port: u64, number: u64) -> Check {
    let reply = both.call(sink, code::TAKE, Args { port, out: vec![0; 1_514], ..Args::none() })?;
    demand(reply.number == number, "a take's number is another")
}

/// A checkpoint that is received and acknowledged: every packet sent before it may leave.
fn save(r: &Random, sink: &mut Sink, both: &mut Both) -> Check {
    checkpoint(r, sink, both)?;
    drain(sink, both, u64::MAX)?;
    while !both.world.link.is_empty() {
        read(sink, both)?;
    }
    accepted(sink, both, code::FLUSH, Args { n: u64::MAX, ..Args::none() })?;
    let reply = both.advance(sink, &mut Step { which: code::ACK, args: Args::none(), part: Some(8) })?;
    demand(reply.number == 0, "the ACK is refused")
}

/// Every packet is taken, one port after the other; 18 where one has no more.
fn take_all(sink: &mut Sink, both: &mut Both, ports: [u64; PORTS]) -> Check {
    for port in ports {
        while both.plain.left[port as usize] < both.plain.packets[port as usize].len() {
            take(sink, both, port, 0)?;
        }
        take(sink, both, port, 18)?;
    }
    demand(both.world.primary.packets == 0 && both.world.primary.held == 0, "packets are left")
}

/// 64 packets of all ports together: then every port gives 16, until one of any port has left.
fn sixty_four_packets(r: &Random, sink: &mut Sink) -> Check {
    let mut both = started(r, sink, 1_000);
    for turn in 0..64 {
        send(r, sink, &mut both, turn * 7 % 4, 1 + turn % 9, 0)?;
    }
    (0..=MOST_PORT).try_for_each(|port| send(r, sink, &mut both, port, 1, 16))?;
    (0..=MOST_PORT).try_for_each(|port| take(sink, &mut both, port, 18))?;
    save(r, sink, &mut both)?;
    for port in [2, 0, 3, 1] {
        take(sink, &mut both, port, 0)?;
        send(r, sink, &mut both, (port + 1) % 4, 5, 0)?;
        (0..=MOST_PORT).try_for_each(|port| send(r, sink, &mut both, port, 1, 16))?;
    }
    // the last four are of the open epoch
    for _ in 0..15 {
        (0..=MOST_PORT).rev().try_for_each(|port| take(sink, &mut both, port, 0))?;
    }
    (0..=MOST_PORT).try_for_each(|port| take(sink, &mut both, port, 18))?;
    save(r, sink, &mut both)?;
    take_all(sink, &mut both, [3, 2, 1, 0])
}

/// Q bytes of all ports together: what one port's packet frees another port may use, and no byte more.
fn bytes_of_all_ports(r: &Random, sink: &mut Sink) -> Check {
    let mut both = started(r, sink, 60);
    for (port, length, number) in [(0, 20, 0), (1, 20, 0), (2, 19, 0), (3, 2, 16), (3, 1, 0)] {
        send(r, sink, &mut both, port, length, number)?;
    }
    (0..=MOST_PORT).try_for_each(|port| send(r, sink, &mut both, port, 1, 16))?;
    save(r, sink, &mut both)?;
    for (port, freed) in [(1, 20), (2, 19), (0, 20), (3, 1)] {
        take(sink, &mut both, port, 0)?;
        send(r, sink, &mut both, (port + 2) % 4, freed + 1, 16)?;
        send(r, sink, &mut both, (port + 2) % 4, freed, 0)?;
        send(r, sink, &mut both, port, 1, 16)?;
    }
    save(r, sink, &mut both)?;
    take_all(sink, &mut both, [1, 3, 0, 2])
}

/// One packet of a port among 63 of another: it leaves from its place, and the others follow in their order; and the
/// other way round.
fn among_others(r: &Random, sink: &mut Sink, one: u64, others: u64, place: usize) -> Check {
    for first in [one, others] {
        let longest = r.pick(&[1, 7, 512]);
        let mut both = started(r, sink, 64 * longest);
        for turn in 0..64 {
            send(r, sink, &mut both, if turn == place { one } else { others }, r.range(1, longest), 0)?;
        }
        save(r, sink, &mut both)?;
        let mut ports = [0, 1, 2, 3];
        ports.swap(0, first as usize);
        take_all(sink, &mut both, ports)?;
    }
    Ok(())
}

/// A list at random; then the primary is alone, and every packet left leaves, port by port.
fn list(r: &Random, sink: &mut Sink, tally: &mut Tally) -> Check {
    let q = r.pick(&[20, 60, 100, 300]);
    let mut both = started(r, sink, q);
    let mood = packets_mood(r.pick(&[0, 4, 10]), r.pick(&[40, 80]));
    for _ in 0..r.range(40, 120) {
        let mut step = next_step(r, &both.world, &mood);
        both.advance(sink, &mut step)?;
    }
    note(&mut tally.takes[0], both.plain.protected, [0; PORTS]);
    let before = both.plain.left;
    if !both.world.primary.alone {
        drain(sink, &mut both, u64::MAX)?;
        accepted(sink, &mut both, code::CHECKPOINT, Args { cpu: r.cpu(), ..Args::none() })?;
    }
    while !both.world.primary.alone {
        accepted(sink, &mut both, code::PRIMARY_TICK, Args::none())?;
    }
    let mut ports = [0, 1, 2, 3];
    ports.rotate_left(r.below(4) as usize);
    take_all(sink, &mut both, ports)?;
    note(&mut tally.takes[1], both.plain.left, before);
    Ok(())
}

fn note(takes: &mut [u64; PORTS], now: [usize; PORTS], before: [usize; PORTS]) {
    takes.iter_mut().zip(now).zip(before).for_each(|((count, now), before)| *count += (now - before) as u64);
}
