//! Both ends at one place of a list of calls, with what the calls alone say of them: the plain pair and the ticks.
//!
//! Every call is made by the library too, and all that it gives is compared with the model's; so what is checked here
//! on the model's world is checked of the library's.
use crate::arguments::{fresh_world, start_args};
use crate::checker::{demand, Check};
use crate::generate::{perform, Step};
use crate::items::code;
use crate::model::*;
use crate::plain::Plain;
use crate::random::Random;
use crate::sink::Sink;
use crate::ticks::Ticks;
use crate::world::{Args, World};

#[derive(Clone)]
pub struct Both {
    pub world: World,
    pub plain: Plain,
    pub ticks: Ticks,
}

impl Both {
    /// After a start at these settings.
    pub fn start(r: &Random, sink: &mut Sink, settings: Settings) -> Both {
        let mut world = fresh_world(r, &settings);
        let mut args = start_args(r, settings);
        let plain = Plain::start(&args, &world.memory, &world.disk);
        sink.call(code::START, &mut world, &mut args);
        Both { world, plain, ticks: Ticks::start(settings.t) }
    }

    /// Makes one call on the world, on the plain pair and on the ticks, and checks what must hold after it.
    pub fn advance(&mut self, sink: &mut Sink, step: &mut Step) -> Result<Reply, String> {
        let reply = perform(sink, &mut self.world, step);
        if step.which == code::TAKE && reply.number == 0 {
            self.check_take(&step.args, &reply)?;
        }
        if step.which == code::ACTIVATION && reply.number == 0 {
            demand(reply.value == self.plain.r as u64, "activation's value is not r")?;
        }
        self.plain.step(step.which, &step.args, &reply);
        self.ticks.step(step.which, &reply);
        self.check_always()?;
        Ok(reply)
    }

    /// Makes one call with these arguments.
    pub fn call(&mut self, sink: &mut Sink, which: usize, args: Args) -> Result<Reply, String> {
        self.advance(sink, &mut Step { which, args, part: None })
    }

    /// An accepted take gave its port's oldest packet. That it is one of checkpoint r's under protection is asked after
    /// this call and every later one.
    fn check_take(&self, args: &Args, reply: &Reply) -> Check {
        let (plain, port) = (&self.plain, args.port as usize);
        let left = plain.left[port];
        demand(left < plain.packets[port].len(), "a take of a port with no packet queued")?;
        let given = &args.out[..reply.value as usize];
        demand(plain.packets[port][left][..] == *given, "a take that is not its port's oldest packet")
    }

    /// What holds after every call.
    fn check_always(&self) -> Check {
        let (w, plain) = (&self.world, &self.plain);
        demand(w.primary.in_range() && w.standby.in_range(), "a state out of range")?;
        demand(plain.r < plain.checkpoints.len() && plain.a <= plain.r, "r or a is too high")?;
        demand(w.standby.received as usize == plain.r, "the last received epoch is not r")?;
        demand(w.primary.alone == plain.alone(), "alone and the plain count differ")?;
        demand((w.standby.mode == Mode::Active) == plain.activated, "active and activated differ")?;
        let of_checkpoint = plain.protected.iter().zip(plain.received().packets).all(|(&left, has)| left <= has);
        demand(of_checkpoint, "a packet left under protection that checkpoint r has not")?;
        demand(w.memory == plain.memory && w.disk == plain.disk, "the primary's images")?;
        if plain.activated {
            demand(w.standby_memory == plain.standby_memory, "the active standby's memory")?;
            demand(w.standby_disk == plain.standby_disk, "the active standby's disk")?;
            demand(w.standby.kept_cpu == plain.received().cpu, "the active standby's processor state")?;
        }
        self.ticks.check(&w.standby)
    }

    /// So many ticks, a flush of all due and the activation; then the standby is active with checkpoint r.
    pub fn take_over(&mut self, sink: &mut Sink, ticks: u64) -> Check {
        for _ in 0..ticks {
            self.call(sink, code::STANDBY_TICK, Args::none())?;
        }
        let n = self.world.standby.due;
        self.call(sink, code::FLUSH, Args { n, ..Args::none() })?;
        self.call(sink, code::ACTIVATION, Args::none())?;
        let received = self.plain.received();
        demand(self.world.standby_memory == received.memory, "memory is not checkpoint r's")?;
        demand(self.world.standby_disk == received.disk, "the disk is not checkpoint r's")?;
        demand(self.world.standby.mode == Mode::Active, "not active after the takeover")
    }
}
