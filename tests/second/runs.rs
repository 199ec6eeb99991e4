//! The stored runs: each script has its output beside it, and both programs must print exactly that.

use crate::compare::{output_of, shown, Programs};
use crate::script::{answers, Engine};
use std::fs;
use std::path::{Path, PathBuf};

fn engine_of(path: &Path) -> Option<Engine> {
    match path.extension()?.to_str()? {
        "wheel" => Some(Engine::Wheel),
        "queue" => Some(Engine::Queue),
        _ => None,
    }
}

/// Checks every stored run and says whether all are equal.
pub fn check(programs: &Programs, folder: &Path) -> bool {
    let mut paths: Vec<PathBuf> = fs::read_dir(folder)
        .unwrap_or_else(|error| panic!("{}: {error}", folder.display()))
        .map(|item| item.expect("a folder entry cannot be read").path())
        .filter(|path| {
            path.file_name().is_some_and(|name| !name.to_string_lossy().starts_with('.'))
        })
        .collect();
    paths.sort();
    let (mut count, mut wrong) = (0, 0);
    for path in &paths {
        let Some(engine) = engine_of(path) else {
            // An output without its script would be a run that nobody checks.
            let alone = ["wheel", "queue"].iter().all(|kind| !path.with_extension(kind).exists());
            if alone {
                println!("{} has no script beside it", path.display());
                wrong += 1;
            }
            continue;
        };
        count += 1;
        let input = fs::read(path).expect("a script cannot be read");
        let Ok(stored) = fs::read(path.with_extension("out")) else {
            println!("{} has no .out file beside it", path.display());
            wrong += 1;
            continue;
        };
        let own = answers(engine, &input);
        let other = output_of(programs.of(engine), &input);
        for (name, output) in [("the second program", &own), ("the built program", &other)] {
            if *output != stored {
                println!(
                    "{}: {name} prints\n{}stored is\n{}",
                    path.display(),
                    shown(output),
                    shown(&stored)
                );
                wrong += 1;
            }
        }
    }
    if count == 0 {
        println!("{} has no stored runs", folder.display());
        return false;
    }
    if wrong == 0 {
        println!("stored runs: {count} runs, all outputs equal");
    } else {
        println!("stored runs: {count} runs, {wrong} faults");
    }
    wrong == 0
}
