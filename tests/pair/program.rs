//! A program that answers its input line by line, run on one input: `pair` or `trial`.
use std::io::{Read, Write};
use std::process::{Command, Stdio};
use std::sync::mpsc;
use std::thread;
use std::time::Duration;

/// Feeds an input to the program, in pieces of the size given, and reads all that it prints, up to `most` bytes.
pub fn output_of(program: &str, input: &[u8], piece: usize, most: u64) -> Result<Vec<u8>, String> {
    let spawned = Command::new(program).stdin(Stdio::piped()).stdout(Stdio::piped()).spawn();
    let mut child = spawned.map_err(|error| format!("cannot start {program}: {error}"))?;
    let (mut stdin, stdout) = (child.stdin.take().unwrap(), child.stdout.take().unwrap());
    thread::scope(|scope| {
        scope.spawn(move || {
            // Behind a line that ends it the program may stop reading: what it does not take is no fault.
            for part in input.chunks(piece) {
                if stdin.write_all(part).is_err() {
                    break;
                }
            }
        });
        let (sender, receiver) = mpsc::channel();
        scope.spawn(move || {
            let mut output = Vec::new();
            let result = stdout.take(most).read_to_end(&mut output);
            let _ = sender.send(result.map(|_| output));
        });
        let output = receiver.recv_timeout(Duration::from_secs(60));
        if output.is_err() {
            let _ = child.kill();
        }
        let status = child.wait().map_err(|error| error.to_string())?;
        match output {
            Err(_) => Err("the program does not end".into()),
            Ok(Err(error)) => Err(error.to_string()),
            Ok(Ok(bytes)) if (bytes.len() as u64) < most && !status.success() => {
                Err(format!("the program ended with {status}"))
            }
            Ok(Ok(bytes)) => Ok(bytes),
        }
    })
}
