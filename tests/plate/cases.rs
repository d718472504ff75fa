//! The model on the cases written by hand, NAME.in with NAME.out, without the program.
use crate::{model, report};
use std::fs;
use std::path::{Path, PathBuf};

/// The inputs meant: a file itself, or the `.in` files of a directory by name.
fn inputs_of(path: &Path) -> Result<Vec<PathBuf>, String> {
    if path.is_file() {
        return Ok(vec![path.to_path_buf()]);
    }
    let entries = fs::read_dir(path).map_err(|error| format!("{}: {error}", path.display()))?;
    let mut inputs: Vec<PathBuf> = entries.filter_map(|entry| Some(entry.ok()?.path())).collect();
    inputs.retain(|input| input.extension().is_some_and(|extension| extension == "in"));
    inputs.sort();
    Ok(inputs)
}

/// Whether the model gives a case's output.
fn agrees(input: &Path) -> Result<(), String> {
    let read = |path: &Path| fs::read(path).map_err(|error| format!("{}: {error}", path.display()));
    let wanted = read(&input.with_extension("out"))?;
    let given = model::plate(&read(input)?);
    report::difference(&wanted, &given).map_or(Ok(()), |(line, case, model)| {
        Err(format!("{}: line {line}: by hand {case}, model {model}", input.display()))
    })
}

/// All cases of the files and directories; whether the model agrees with each.
pub fn all(paths: &[String]) -> bool {
    let (mut count, mut good) = (0, true);
    for path in paths {
        let inputs = inputs_of(Path::new(path)).unwrap_or_else(|error| {
            println!("{error}");
            Vec::new()
        });
        good &= !inputs.is_empty();
        count += inputs.len();
        for input in inputs {
            if let Err(error) = agrees(&input) {
                println!("{error}");
                good = false;
            }
        }
    }
    println!("{count} cases given to the model");
    good && count > 0
}
