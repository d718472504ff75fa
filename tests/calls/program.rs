//! Makes one call of libcapi.a for each line of its input and prints what the call gave, as FORM.md says.
mod call;
mod capi;
mod guarded;
mod items;
mod lent;
mod print_form;
mod read_form;

use lent::Lent;
use print_form::Output;
use read_form::{Input, Line};
use std::fs::File;
use std::io::{self, Write};
use std::os::fd::AsFd;
use std::process::exit;

fn lines(input: &mut Input<impl io::Read>, output: &mut Output<impl Write>) -> io::Result<()> {
    let mut l = Lent::new();
    loop {
        match input.line(&mut l) {
            Line::Call(which) => {
                l.lend_states(which, 0, 0);
                let answer = call::call(which, &mut l);
                output.answer(which, &l, answer)?;
            }
            Line::End => break,
            Line::NotOfTheForm => {
                output.refused();
                break;
            }
        }
    }
    output.flush()
}

fn main() {
    // As a file, since what is printed is gathered already and is not to be held back at the end of a line.
    let output = io::stdout().as_fd().try_clone_to_owned().map(File::from);
    let printed = output.and_then(|output| lines(&mut Input::new(io::stdin().lock()), &mut Output::new(output)));
    exit(printed.is_err() as i32);
}
