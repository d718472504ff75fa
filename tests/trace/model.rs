//! A second, plain model of the program `trace`, written from its page in README.md and documents 01 and 02 alone: the
//! lines, the commands on the two ends of tests/calls/model.rs, and the rows. It is made for reading, not for speed,
//! and shares nothing with the program that it is compared with.

#[path = "../calls/model.rs"]
pub mod ends;
pub mod lines;
mod rows;
mod site;

pub use lines::{parse, Command};
pub use rows::{row, HEADER};
pub use site::Site;

/// What a line gave: its command, or why it is none; the number and the value.
pub struct Answer {
    pub asked: Result<Command, String>,
    pub number: u64,
    pub value: u64,
}

pub struct Trace {
    pub site: Site,
    /// A byte of the link was changed to another value, in this row or an earlier one.
    pub damaged: bool,
    /// After `k` no line is looked at.
    pub ended: bool,
}

impl Trace {
    pub fn start() -> Trace {
        Trace { site: Site::start(), damaged: false, ended: false }
    }

    /// One line without its newline.
    pub fn line(&mut self, line: &[u8]) -> Answer {
        let asked = parse(line);
        let given = match &asked {
            Ok(command) => self.command(command),
            Err(_) => Err(1),
        };
        let (number, value) = given.map_or_else(|number| (number, 0), |value| (0, value));
        Answer { asked, number, value }
    }

    /// The value, or the number of the refusal.
    fn command(&mut self, command: &Command) -> Result<u64, u64> {
        let (site, numbers) = (&mut self.site, &command.numbers);
        match command.letter {
            'w' => site.write_head(numbers[0], numbers[1] as u8),
            'd' => site.write_block(numbers[0], numbers[1] as u8),
            's' => site.send(numbers[0]),
            'c' => site.checkpoint(numbers[0] as u8),
            'm' => site.move_record(),
            'a' => site.next_ack(),
            't' => site.take(),
            'f' => site.flush(1),
            'x' => {
                let before = site.exchange(numbers[0], numbers[1] as u8)?;
                self.damaged |= before != numbers[1];
                Ok(before)
            }
            'p' => site.tick(),
            _ => {
                self.ended = true;
                site.take_over()
            }
        }
    }
}

/// The whole output for a whole input.
pub fn trace(input: &[u8]) -> Vec<u8> {
    let mut trace = Trace::start();
    let mut output = format!("{HEADER}\n");
    for line in lines::lines(input) {
        let answer = trace.line(line);
        output.push_str(&row(&trace, &answer));
        output.push('\n');
        if trace.ended {
            break;
        }
    }
    output.into_bytes()
}
