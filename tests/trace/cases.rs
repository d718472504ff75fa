//! The model on the cases written by hand, NAME.in with NAME.out or NAME.trace, without the program.
use crate::{model, report};
use std::fs;
use std::path::{Path, PathBuf};

/// The outputs meant: a file itself, or those beside the `.in` files of a directory, by name.
fn outputs_of(path: &Path) -> Result<Vec<PathBuf>, String> {
    if path.is_file() {
        let is_input = path.extension().is_some_and(|extension| extension == "in");
        return Ok(vec![if is_input { path.with_extension("out") } else { path.to_path_buf() }]);
    }
    let entries = fs::read_dir(path).map_err(|error| format!("{}: {error}", path.display()))?;
    let mut inputs: Vec<PathBuf> = entries.filter_map(|entry| Some(entry.ok()?.path())).collect();
    inputs.retain(|input| input.extension().is_some_and(|extension| extension == "in"));
    inputs.sort();
    Ok(inputs.into_iter().map(|input| input.with_extension("out")).collect())
}

/// Whether the model gives a case's output.
fn agrees(output: &Path) -> Result<(), String> {
    let read = |path: &Path| fs::read(path).map_err(|error| format!("{}: {error}", path.display()));
    let wanted = read(output)?;
    let given = model::trace(&read(&output.with_extension("in"))?);
    report::difference(&wanted, &given).map_or(Ok(()), |(line, case, model)| {
        Err(format!("{}: line {line}: by hand {case}, model {model}", output.display()))
    })
}

/// All cases of the files and directories; whether the model agrees with each.
pub fn all(paths: &[String]) -> bool {
    let (mut count, mut good) = (0, true);
    for path in paths {
        let outputs = outputs_of(Path::new(path)).unwrap_or_else(|error| {
            println!("{error}");
            Vec::new()
        });
        good &= !outputs.is_empty();
        count += outputs.len();
        for output in outputs {
            if let Err(error) = agrees(&output) {
                println!("{error}");
                good = false;
            }
        }
    }
    println!("{count} cases given to the model");
    good && count > 0
}
