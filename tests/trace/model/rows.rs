//! A row: the columns of the page, each with its width.
use super::ends::Mode;
use super::site::U;
use super::{Answer, Trace};

pub const HEADER: &str = "command  answer                           value  open acked received    primary pages   \
                          primary blocks    standby pages   standby blocks held waiting link staged due";

/// The words of a number at a command.
fn words(letter: char, number: u64) -> &'static str {
    match (number, letter) {
        (0, _) => "accepted",
        (1, _) => "no such byte on the link",
        (2, _) => "no such page or block",
        (3, _) => "not within a page, or no block",
        (4, _) => "packet not of 1 to 1514 bytes",
        (5, _) => "reply or destination too short",
        (6, _) => "kind not for this end",
        (7, _) => "length not its kind's",
        (8, _) => "epoch not the next one",
        (9, _) => "out of order in its checkpoint",
        (10, _) => "counts not those received",
        (11, _) => "ACK old, or of an open epoch",
        (12, _) => "record area not valid",
        (13, _) => "not in this mode",
        (14, _) => "the epoch has all its blocks",
        (15, _) => "no space in the stream",
        (16, _) => "no space for the packet",
        (17, _) => "slots for blocks are full",
        (18, 'm' | 'x') => "no record on its way",
        (18, 'a') => "no ACK to read",
        (18, _) => "nothing may be handed out yet",
        (19, _) => "the last epoch is open",
        (20, _) => "blocks are still due",
        (23, _) => "no such port",
        (256, _) => "cut short",
        _ => panic!("number {number} has no words"),
    }
}

/// What is not as at the start, each with two spaces before it.
fn remarks(trace: &Trace) -> String {
    let mut remarks = String::new();
    if trace.site.primary.alone {
        remarks.push_str("  primary alone");
    }
    match trace.site.standby.mode {
        Mode::Receiving => {}
        Mode::TakingOver => remarks.push_str("  standby taking over"),
        Mode::Active => remarks.push_str("  standby active"),
    }
    if trace.damaged {
        remarks.push_str("  no run of document 01: link damaged");
    }
    remarks
}

/// The first bytes of the four pages or blocks of an image.
fn heads(image: &[u8]) -> String {
    format!("{:>5}{:>4}{:>4}{:>4}", image[0], image[U], image[2 * U], image[3 * U])
}

/// The row of a line, from what it gave and what both ends are behind it, without its newline.
pub fn row(trace: &Trace, answer: &Answer) -> String {
    let (command, said) = match &answer.asked {
        Ok(command) => {
            let numbers: String = command.numbers.iter().map(|number| format!(" {number}")).collect();
            (format!("{}{numbers}", command.letter), words(command.letter, answer.number).to_string())
        }
        Err(why) => ("?".to_string(), why.clone()),
    };
    let (site, said) = (&trace.site, format!("{} {said}", answer.number));
    let (primary, standby) = (&site.primary, &site.standby);
    let epochs = format!("{:>6}{:>6}{:>9}", primary.open, primary.acknowledged, standby.received);
    let images = [&site.memory, &site.disk, &site.standby_memory, &site.standby_disk];
    let images = images.map(|image| heads(image)).concat();
    let counts = format!("{:>5}{:>8}{:>5}", primary.packets, primary.waiting, site.link.len());
    let slots = format!("{:>7}{:>4}", standby.staged, standby.due);
    // a space behind the command, however long it is
    let command = command + " ";
    format!("{command:<9}{said:<33}{:>5}{epochs}{images}{counts}{slots}{}", answer.value, remarks(trace))
}
