//! What came in the calls that were compared.
use crate::sink::Sink;

pub fn print(sink: &Sink) {
    sink.numbers.print();
    sink.ports.print();
    sink.repeats.print();
    sink.sums.print();
    sink.files.print();
    let [_, pages, blocks, states, commits, _, _, _, wide_pages, wide_commits] = sink.records;
    println!("records accepted: {pages} PAGE, {blocks} BLOCK, {states} STATE, {commits} COMMIT");
    println!("  and of the wide kinds {wide_pages} PAGE, {wide_commits} COMMIT");
    sink.kinds.print();
    let [pages, blocks, wide_pages] = sink.by_count;
    println!("records out of order by the count of pages alone: {pages} PAGE, {blocks} BLOCK, {wide_pages} wide PAGE");
    println!("lists with a checkpoint longer than T ticks: {}", sink.long_checkpoints);
}

/// Every number that a call can give must have come, 9 also by the count of pages alone, of a PAGE of either width and
/// of a BLOCK; every number that a kind can get, at M up to 4,096 and above; packets and takes of every sort, calls of
/// every sort with blocks that come again, sums of every sort, and files of every sort. In some lists a checkpoint must
/// have taken longer than T ticks.
pub fn all_came(sink: &Sink) -> bool {
    let counted = sink.by_count.iter().all(|&count| count > 0);
    if !counted {
        println!("number 9 never came by the count of pages alone, of a PAGE of either width or of a BLOCK");
    }
    if sink.long_checkpoints == 0 {
        println!("in no list was a checkpoint longer than T ticks");
    }
    let came = [
        sink.numbers.all_came(), sink.kinds.all_came(), sink.ports.all_came(), sink.repeats.all_came(),
        sink.sums.all_came(), sink.files.all_came(),
    ];
    came == [true; 6] && counted && sink.long_checkpoints > 0
}
