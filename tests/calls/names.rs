//! The names of the parts of a call, for telling a difference.
use crate::items::{
    Item, PACKET_WORDS, PRIMARY_FIRST_WORDS, PRIMARY_WORDS, SLOTS_AT, STANDBY_LAST_AT, STANDBY_WORDS, WRITTEN_AT,
};

const SETTINGS: [&str; 8] = ["U", "M", "D", "B", "S", "Q", "L", "T"];
const PRIMARY: [&str; PRIMARY_FIRST_WORDS] = [
    "U", "M", "D", "B", "Q", "L", "T", "count of ticks", "open epoch", "acknowledged", "alone",
    "blocks of the open epoch", "records of the open epoch", "waiting bytes", "packets held", "bytes held",
];
const PACKET: [&str; PACKET_WORDS] = ["epoch", "length", "port"];
const STANDBY: [&str; SLOTS_AT] =
    ["U", "M", "D", "B", "S", "T", "count of ticks", "mode", "last received epoch", "staged", "due"];
const STANDBY_LAST: [&str; STANDBY_WORDS - STANDBY_LAST_AT] =
    ["blocks of this epoch", "records of this epoch", "pages of this epoch", "next page", "STATE seen"];

pub fn item_name(item: Item) -> &'static str {
    match item {
        Item::Settings => "settings",
        Item::Primary => "primary",
        Item::Standby => "standby",
        Item::Marks => "dirty marks",
        Item::StandbyMarks => "staged marks",
        Item::Order => "order",
        Item::Sizes => "settings of a file",
        Item::Cpu => "processor state given",
        Item::Pending => "staged processor state",
        Item::Kept => "kept processor state",
        Item::Memory => "memory",
        Item::Disk => "disk",
        Item::Held => "held",
        Item::Stream => "stream",
        Item::StandbyMemory => "standby memory",
        Item::StandbyDisk => "standby disk",
        Item::Pages => "staged pages",
        Item::Blocks => "staged blocks",
        Item::Area => "record area",
        Item::Data => "data or file",
        Item::Out => "destination or reply",
        _ => "number",
    }
}

/// One word of an item that is made of words.
pub fn word_name(item: Item, at: usize) -> String {
    let name = match (item, at) {
        (Item::Settings, 0..8) | (Item::Sizes, 0..4) => SETTINGS[at].to_string(),
        (Item::Primary, 0..PRIMARY_FIRST_WORDS) => PRIMARY[at].to_string(),
        (Item::Primary, PRIMARY_FIRST_WORDS..WRITTEN_AT) => packet_word(at - PRIMARY_FIRST_WORDS),
        (Item::Primary, WRITTEN_AT..PRIMARY_WORDS) => format!("block number {} of the open epoch", at - WRITTEN_AT),
        (Item::Standby, 0..SLOTS_AT) => STANDBY[at].to_string(),
        (Item::Standby, SLOTS_AT..STANDBY_LAST_AT) => format!("slot {}'s block number", at - SLOTS_AT),
        (Item::Standby, STANDBY_LAST_AT..STANDBY_WORDS) => STANDBY_LAST[at - STANDBY_LAST_AT].to_string(),
        _ => format!("word {at}"),
    };
    format!("{}: {name}", item_name(item))
}

/// One word of a packet, counted from the first packet's on.
fn packet_word(at: usize) -> String {
    format!("packet {}'s {}", at / PACKET_WORDS, PACKET[at % PACKET_WORDS])
}
