//! Well-formed trials: their settings, and what the guest does tick by tick. Each plan is made for some ways in which a
//! run goes on or ends.
use super::random::Random;

/// How many pages, blocks and packets a tick has at most, and how often it has none of them, in a hundred.
struct Load {
    pages: u64,
    blocks: u64,
    packets: u64,
    idle: u64,
}

impl Load {
    /// Of each count the most at random, below these limits.
    fn below(random: &Random, pages: u64, blocks: u64, packets: u64, idle: u64) -> Load {
        Load { pages: random.below(pages), blocks: random.below(blocks), packets: random.below(packets), idle }
    }
}

struct Plan {
    interval: u64,
    rate: u64,
    patience: u64,
    ticks: u64,
    load: Load,
}

struct Writer<'a> {
    random: &'a Random,
    input: Vec<u8>,
}

impl Writer<'_> {
    /// A number, seldom with zeros in front.
    fn number(&self, number: u64) -> String {
        let zeros = match self.random.below(2_000) {
            0..=9 => self.random.range(1, 30),
            10 => self.random.range(400, 3_000),
            _ => 0,
        };
        "0".repeat(zeros as usize) + &number.to_string()
    }

    fn row(&mut self, numbers: [u64; 3]) {
        let words = numbers.map(|number| self.number(number));
        self.input.extend(words.join(" ").bytes());
        self.input.push(b'\n');
    }

    fn ticks(&mut self, count: u64, load: &Load) {
        for _ in 0..count {
            let random = self.random;
            let below = |most: u64| random.below(most + 1);
            let idle = random.percent(load.idle);
            self.row(if idle { [0; 3] } else { [below(load.pages), below(load.blocks), below(load.packets)] });
        }
    }

    fn plan(&mut self, plan: &Plan) {
        self.row([plan.interval, plan.rate, plan.patience]);
        self.ticks(plan.ticks, &plan.load);
    }
}

/// Settings at and past the ends of their ranges.
const EDGES: [u64; 12] = [0, 0, 0, 1, 2, 84, 1_024, 59_999, 60_000, 60_001, 4_294_967_294, 4_294_967_295];

pub fn trial(random: &Random) -> Vec<u8> {
    let mut writer = Writer { random, input: Vec::new() };
    match random.weighted(&[24, 16, 12, 10, 12, 10, 6, 6, 6]) {
        0 => carried(&mut writer),
        1 => tight(&mut writer),
        2 => slow(&mut writer),
        3 => full_slots(&mut writer),
        4 => lonely(&mut writer),
        5 => any(&mut writer),
        6 => full_stream(&mut writer),
        7 => edges(&mut writer),
        _ => impatient(&mut writer),
    }
    if random.percent(30) {
        last_straw(&mut writer);
    }
    writer.input
}

/// A tick at or past a limit, and lines behind it.
fn last_straw(writer: &mut Writer) {
    let random = writer.random;
    let many = random.pick(&[0, 1, 1, 2, 60, 4_294_967_230]);
    writer.row(match random.below(4) {
        0 => [4 + many, 0, random.below(2)],
        1 => [0, 2 + many, random.below(2)],
        2 => [0, 0, 64 + many],
        _ => [4 + many, 2 + many, 64 + many],
    });
    writer.ticks(random.below(3), &Load { pages: 4, blocks: 2, packets: 2, idle: 30 });
}

/// The link carries all: a run to the end of its lines, seldom a long one.
fn carried(writer: &mut Writer) {
    let random = writer.random;
    let interval = random.range(1, 8);
    let ticks = match random.below(60) {
        0 => random.range(400, 1_500),
        _ => random.range(1, 50),
    };
    let load = Load::below(random, 5, 3, (60 / interval).min(8), 20);
    let patience = interval + random.range(2, 12);
    writer.plan(&Plan { interval, rate: random.range(230, 2_000), patience, ticks, load });
}

/// The link carries about as much as there is.
fn tight(writer: &mut Writer) {
    let random = writer.random;
    let interval = random.range(1, 8);
    let load = Load::below(random, 5, 3, 4, random.below(40));
    let need = 84 + 74 * load.pages + 74 * interval * load.blocks / 2;
    let rate = (need / interval).saturating_sub(20) + random.range(1, 45);
    writer.plan(&Plan { interval, rate, patience: random.range(3, 20), ticks: random.range(5, 70), load });
}

/// The link carries a part of a record in a tick.
fn slow(writer: &mut Writer) {
    let random = writer.random;
    let load = Load::below(random, 5, 3, 3, random.below(90));
    let (interval, rate) = (random.range(1, 8), random.range(1, 100));
    writer.plan(&Plan { interval, rate, patience: random.range(1, 20), ticks: random.range(2, 40), load });
}

/// Large checkpoints first, so that several small ones with blocks are read in one tick.
fn full_slots(writer: &mut Writer) {
    let random = writer.random;
    let (interval, rate) = (random.range(1, 2), random.range(290, 400));
    let (pages, blocks) = (random.below(2), random.pick(&[1, 2, 2]));
    writer.row([interval, rate, random.range(6, 20)]);
    for _ in 0..random.range(2, 6) {
        writer.row([4, 2, random.below(2)]);
    }
    for _ in 0..random.range(2, 30) {
        writer.row([random.below(pages + 1), blocks, random.below(2)]);
    }
}

/// Blocks keep the standby receiving; then a checkpoint that takes longer than T, and ticks of a primary alone.
fn lonely(writer: &mut Writer) {
    let random = writer.random;
    let (interval, patience) = (random.range(2, 8), random.range(2, 6));
    writer.row([interval, random.range(70, 110), patience]);
    for _ in 1..interval {
        writer.row([0, 1, random.below(3)]);
    }
    writer.row([4, random.below(2), random.below(3)]);
    writer.ticks(patience - 1, &Load { pages: 1, blocks: 1, packets: 2, idle: 60 });
    let blocks = random.pick(&[4, 4, 5]);
    writer.ticks(random.below(8), &Load { pages: 4, blocks, packets: random.pick(&[2, 64]), idle: 30 });
}

/// Every setting at random.
fn any(writer: &mut Writer) {
    let random = writer.random;
    let load = Load::below(random, 6, 4, 20, random.below(80));
    let (interval, rate) = (random.range(1, 8), random.range(1, 2_000));
    writer.plan(&Plan { interval, rate, patience: random.range(1, 20), ticks: random.below(30), load });
}

/// The stream fills before a detector is at T.
fn full_stream(writer: &mut Writer) {
    let random = writer.random;
    let load = Load { pages: random.range(2, 4), blocks: random.range(1, 2), packets: random.below(3), idle: 10 };
    let (interval, rate) = (random.range(1, 8), random.range(1, 80));
    writer.plan(&Plan { interval, rate, patience: random.range(10, 20), ticks: random.range(5, 30), load });
}

/// Settings from EDGES.
fn edges(writer: &mut Writer) {
    let random = writer.random;
    let usual = |low: u64, high: u64| if random.percent(50) { random.pick(&EDGES) } else { random.range(low, high) };
    let load = Load { pages: 4, blocks: 2, packets: 2, idle: 40 };
    let (interval, rate, patience) = (usual(1, 8), usual(1, 2_000), usual(1, 20));
    writer.plan(&Plan { interval, rate, patience, ticks: random.below(30), load });
}

/// Few ticks of patience and long silences.
fn impatient(writer: &mut Writer) {
    let random = writer.random;
    let load = Load { pages: 4, blocks: 2, packets: random.below(4), idle: random.range(40, 90) };
    let (interval, rate) = (random.range(1, 8), random.range(84, 1_000));
    writer.plan(&Plan { interval, rate, patience: random.range(1, 5), ticks: random.range(1, 30), load });
}
