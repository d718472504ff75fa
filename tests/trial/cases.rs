//! The model on the cases written by hand, without the program.
use crate::{model, report};
use std::fs;
use std::path::{Path, PathBuf};

/// The `.in` files of a directory, by name.
fn inputs_in(directory: &Path) -> Result<Vec<PathBuf>, String> {
    let entries = fs::read_dir(directory).map_err(|error| format!("{}: {error}", directory.display()))?;
    let mut inputs = Vec::new();
    for entry in entries {
        let path = entry.map_err(|error| error.to_string())?.path();
        if path.extension().is_some_and(|extension| extension == "in") {
            inputs.push(path);
        }
    }
    inputs.sort();
    Ok(inputs)
}

/// Whether the model gives a case's output.
fn agrees(input: &Path) -> Result<(), String> {
    let read = |path: &Path| fs::read(path).map_err(|error| format!("{}: {error}", path.display()));
    let wanted = read(&input.with_extension("out"))?;
    let given = model::trial(&read(input)?);
    report::difference(&wanted, &given).map_or(Ok(()), |(line, case, model)| {
        Err(format!("{}: line {line}: by hand {case}, model {model}", input.display()))
    })
}

/// All cases of the directories; whether the model agrees with each.
pub fn all(directories: &[String]) -> bool {
    let (mut count, mut good) = (0, true);
    for directory in directories {
        let inputs = inputs_in(Path::new(directory)).unwrap_or_else(|error| {
            println!("{error}");
            Vec::new()
        });
        good &= !inputs.is_empty();
        count += inputs.len();
        for input in inputs {
            if let Err(error) = agrees(&input) {
                println!("{error}");
                good = false;
            }
        }
    }
    println!("{count} cases given to the model");
    good && count > 0
}
