//! Ports apart (document 02, Job 6): what every packet and every take does to the packets of each port. It is read from
//! the words and the held bytes that the library was lent and that it left, and not from the model's state.
use crate::arguments::NO_PORTS;
use crate::checker::{demand, Check};
use crate::items::{code, Item, PACKET_WORDS, PRIMARY_FIRST_WORDS, WRITTEN_AT};
use crate::lent::Lent;
use crate::model::PORTS;
use crate::sorts;
use std::collections::BTreeMap;

/// A take that was judged by its own port's packet, where another port's would have been judged otherwise. The oldest
/// of all is another port's in the last four.
const TAKES: [&str; 5] = [
    "18, no packet of the port, and another port's may leave",
    "18, the port's oldest is not acknowledged, and the oldest of all is",
    "0, the port's oldest stood behind packets of other ports",
    "5, the destination is long enough for the oldest of all",
    "0, the destination is too short for the oldest of all",
];

/// One held packet.
#[derive(PartialEq)]
struct Packet {
    epoch: u64,
    port: u64,
    bytes: Vec<u8>,
}

/// What a primary in range holds, oldest first.
struct Held {
    packets: Vec<Packet>,
    alone: bool,
    acknowledged: u64,
}

impl Held {
    fn of(l: &Lent) -> Held {
        let (words, held) = (l.words(Item::Primary).items(), l.bytes(Item::Held).items());
        let (acknowledged, alone, count) = (words[9], words[10] == 1, words[14] as usize);
        let mut at = 0;
        let entries = words[PRIMARY_FIRST_WORDS..WRITTEN_AT].chunks_exact(PACKET_WORDS).take(count);
        let packets = entries.map(|entry| {
            let (epoch, length, port) = (entry[0], entry[1] as usize, entry[2]);
            at += length;
            Packet { epoch, port, bytes: held[at - length..at].to_vec() }
        });
        Held { packets: packets.collect(), alone, acknowledged }
    }

    fn of_port(&self, port: u64) -> Vec<&Packet> {
        self.packets.iter().filter(|packet| packet.port == port).collect()
    }

    fn is_free(&self, packet: &Packet) -> bool {
        self.alone || packet.epoch <= self.acknowledged
    }

    /// Whether a port's oldest packet may leave.
    fn may_leave(&self, port: u64) -> bool {
        self.of_port(port).first().is_some_and(|oldest| self.is_free(oldest))
    }
}

/// How often what came.
#[derive(Default)]
pub struct Ports {
    /// Accepted calls by code and port, where another port had a packet.
    apart: BTreeMap<(usize, u64), u64>,
    /// Calls refused with 23, by code and port.
    no_port: BTreeMap<(usize, u64), u64>,
    takes: [u64; TAKES.len()],
}

impl Ports {
    /// Counts and checks a packet or a take that did not give 1: so the words are a primary in range.
    pub fn check(&mut self, which: usize, number: u64, before: &Lent, after: &Lent) -> Check {
        if !matches!(which, code::PACKET | code::TAKE) {
            return Ok(());
        }
        let (port, had) = (before.number(Item::Port), Held::of(before));
        if number == 23 {
            *self.no_port.entry((which, port)).or_default() += 1;
        }
        if which == code::TAKE {
            self.note_take(number, port, before.bytes(Item::Out).items().len(), &had);
        }
        if number != 0 {
            return Ok(());
        }
        if had.packets.iter().any(|packet| packet.port != port) {
            *self.apart.entry((which, port)).or_default() += 1;
        }
        others_stay(port, &had, &Held::of(after))?;
        own_port(which, port, &had, after)
    }

    fn note_take(&mut self, number: u64, port: u64, room: usize, had: &Held) {
        let own = had.of_port(port);
        let behind_another = had.packets.first().filter(|oldest| oldest.port != port && !own.is_empty());
        let fits = behind_another.is_some_and(|oldest| oldest.bytes.len() <= room);
        let came = [
            number == 18 && own.is_empty() && had.packets.first().is_some_and(|oldest| had.is_free(oldest)),
            number == 18 && behind_another.is_some_and(|oldest| had.is_free(oldest)),
            number == 0 && behind_another.is_some(),
            number == 5 && fits,
            number == 0 && behind_another.is_some() && !fits,
        ];
        self.takes.iter_mut().zip(came).for_each(|(count, came)| *count += came as u64);
    }

    pub fn print(&self) {
        let sum = |counts: &BTreeMap<(usize, u64), u64>, which: usize| {
            counts.iter().filter(|one| one.0 .0 == which).map(|one| one.1).sum::<u64>()
        };
        println!("packets and takes with packets of another port held, and with a port above 3:");
        for (which, name) in [(code::PACKET, "packets"), (code::TAKE, "takes")] {
            println!("  {name}: {} and {}", sum(&self.apart, which), sum(&self.no_port, which));
        }
        sorts::print(&[("takes that another port's packet would have changed", &TAKES, &self.takes)]);
    }

    /// Whether everything came: both calls accepted at each port, refused at each of `NO_PORTS`, and each sort of take.
    pub fn all_came(&self) -> bool {
        let mut all = true;
        let mut missing = |what: String| {
            println!("never came: {what}");
            all = false;
        };
        for which in [code::PACKET, code::TAKE] {
            let ports = (0..PORTS as u64).filter(|&port| !self.apart.contains_key(&(which, port)));
            ports.for_each(|port| missing(format!("code {which} of port {port} with another port's packets held")));
            let ports = NO_PORTS.into_iter().filter(|&port| !self.no_port.contains_key(&(which, port)));
            ports.for_each(|port| missing(format!("code {which} refused with 23 at port {port}")));
        }
        let takes = TAKES.iter().zip(self.takes).filter(|one| one.1 == 0);
        takes.for_each(|(name, _)| missing(format!("a take with {name}")));
        all
    }
}

/// Every other port's packets and bytes are as before, and so is whether its oldest may leave.
fn others_stay(port: u64, had: &Held, has: &Held) -> Check {
    for other in (0..PORTS as u64).filter(|&other| other != port) {
        demand(has.of_port(other) == had.of_port(other), "a call of one port changes another port's packets")?;
        demand(has.may_leave(other) == had.may_leave(other), "a call of one port changes whether another's may leave")?;
    }
    Ok(())
}

/// A packet comes behind those of its port, and a take hands out the first of them.
fn own_port(which: usize, port: u64, had: &Held, after: &Lent) -> Check {
    let (has, before) = (Held::of(after), had.of_port(port));
    let now = has.of_port(port);
    if which == code::PACKET {
        let Some((last, first)) = now.split_last() else { return Err("a packet accepted is not held".to_string()) };
        let data = after.bytes(Item::Data).items();
        return demand(first == before && last.bytes == data, "a packet is not held behind those of its port");
    }
    let Some((oldest, others)) = before.split_first() else { return Err("a take of a port with none".to_string()) };
    let out = after.bytes(Item::Out).items();
    demand(now == others && out.starts_with(&oldest.bytes), "a take does not hand out its port's oldest packet")
}
