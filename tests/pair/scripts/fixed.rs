//! The fixed scripts.

const E1: &str = "w 1 7\ns 10\nc 5\nt\nm\nm\nm\na\nt\nk\n";
const E1_OUT: &str = "w 0 1\ns 0 1\nc 0 1\nt 18 0\nm 0 1\nm 0 3\nm 0 4\na 0 1\nt 0 10\nk 0 1\n";
const E2: &str = "w 1 7\ns 10\nc 5\nt\nm\nm\nk\n";
const E2_OUT: &str = "w 0 1\ns 0 1\nc 0 1\nt 18 0\nm 0 1\nm 0 3\nk 0 0\n";
const E8: &str = "d 0 1\nd 1 1\nd 2 1\n";
const E8_OUT: &str = "d 0 1\nd 0 1\nd 14 0\n";

const SHORT: [&str; 17] = [
    "", "\n", "\n\n", "k", "k\n", "k\nk\n", "k \n", "K\n", "m", " ", "\r\n", "m\r\nk\r\n", "k\0\n", "\0",
    "w 0 1 ", "w 0", "w",
];

/// Name, script, and the output where it is written here by hand.
type Fixed = (String, Vec<u8>, Option<String>);

pub fn fixed_scripts() -> Vec<Fixed> {
    let mut list: Vec<Fixed> = vec![
        ("E1".into(), E1.into(), Some(E1_OUT.into())),
        ("E2".into(), E2.into(), Some(E2_OUT.into())),
        ("E8".into(), E8.into(), Some(E8_OUT.into())),
        most_records(),
    ];
    for text in SHORT {
        list.push((format!("short {}", text.escape_default()), text.into(), None));
    }
    // Epochs past 16 bits, and as many unread ACKs.
    let long = "c 0\nm\nm\n".repeat(70_000) + "s 9\n" + &"a\n".repeat(70_001) + "t\nc 0\nm\nm\na\nt\nk\n";
    list.push(("70000 epochs".into(), long.into(), None));
    // Lines far longer than any buffer.
    let zeros = "0".repeat(200_000);
    let long = format!("w {zeros}1 {zeros}7\nc {zeros}1{zeros}\n{zeros}\nc {zeros}5\nm\nm\nm\na\nk{zeros}\nk");
    list.push(("long lines".into(), long.into(), None));
    list.extend(pieces());
    list
}

/// Document 02, Job 9: "14 is also given at 65,535 BLOCK records in an epoch", to a block written
/// again and to another one while the epoch has one block of B; 2 comes before. COMMIT counts all
/// 65,535, one slot is due, and the next epoch counts from 0.
fn most_records() -> Fixed {
    let front = "d 3 1\nm\n".repeat(65_535);
    let front_out = "d 0 1\nm 0 2\n".repeat(65_535);
    let rest = "d 3 1\nd 0 1\nd 4 1\nm\nc 1\nm\nm\nf\nf\nd 3 1\nd 3 2\nd 0 1\nd 1 1\nm\nm\nm\nc 2\nm\nm\nf\nf\nf\nk\n";
    let rest_out = "d 14 0\nd 14 0\nd 2 0\nm 18 0\nc 0 1\nm 0 3\nm 0 4\nf 0 1\nf 0 0\n\
        d 0 2\nd 0 2\nd 0 2\nd 14 0\nm 0 2\nm 0 2\nm 0 2\nc 0 2\nm 0 3\nm 0 4\nf 0 1\nf 0 1\nf 0 0\nk 0 2\n";
    ("65535 records".into(), (front + rest).into(), Some(front_out + rest_out))
}

/// A line that lies across, or ends at, a likely size of a piece read at once; and inputs that end
/// there, with and without a last newline, with `k` and with a line after it.
fn pieces() -> Vec<Fixed> {
    let rests = [("run", "w 1 7\ns 10\nc 5\nm\nm\nm\nk\n"), ("end", "w 1 7"), ("k end", "k"), ("k", "k\nm\n")];
    let mut list = Vec::new();
    for size in [512, 1024, 4096, 8192, 16384, 32768, 65536, 131_072] {
        for shift in 0..7 {
            let mut script = Vec::new();
            let front = size - shift;
            while script.len() + 64 <= front {
                script.extend(format!("w 0 {:059}\n", script.len() % 256).bytes());
            }
            script.resize(front, b'\n');
            for (name, rest) in rests {
                let whole = [&script, rest.as_bytes()].concat();
                list.push((format!("{name} at {front}"), whole, None));
            }
        }
    }
    list
}
