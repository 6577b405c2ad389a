//! answers coefficients FILE: write the interpolator's coefficients that the Rust has to FILE.
//! answers list FOLDER: write each replay program's list and what it prints over it below FOLDER, the
//! crates' folder. With a further word --check, only say whether the files hold that.

mod coefficients;
mod list;

use std::process::ExitCode;
use std::{env, fs, io};

fn main() -> io::Result<ExitCode> {
    let words: Vec<String> = env::args().skip(1).collect();
    let words: Vec<&str> = words.iter().map(String::as_str).collect();
    let (what, place, check) = match words[..] {
        [what, place] => (what, place, false),
        [what, place, "--check"] => (what, place, true),
        _ => return Ok(usage()),
    };
    let files = match what {
        "coefficients" => vec![(place.to_string(), coefficients::text().into_bytes())],
        "list" => lists(place),
        _ => return Ok(usage()),
    };
    let mut same = true;
    for (file, bytes) in files {
        if check {
            same &= is_as_written(&file, &bytes);
        } else {
            fs::write(&file, &bytes)?;
            println!("{file} written, {} bytes", bytes.len());
        }
    }
    Ok(match same {
        true => ExitCode::SUCCESS,
        false => ExitCode::FAILURE,
    })
}

/// The files of the replay programs below the crates' folder.
fn lists(crates: &str) -> Vec<(String, Vec<u8>)> {
    let files = |program: &str| {
        let (list, lines) = list::list_and_lines(program);
        let at = |file: &str| format!("{crates}/{program}/{file}");
        [(at("stdin"), list), (at("stdout"), lines.into_bytes())]
    };
    list::PROGRAMS.iter().copied().flat_map(files).collect()
}

fn is_as_written(file: &str, bytes: &[u8]) -> bool {
    match fs::read(file) {
        Ok(held) if held == bytes => {
            println!("{file} {} bytes same", bytes.len());
            true
        }
        Ok(held) => {
            let common = held.iter().zip(bytes).take_while(|(a, b)| a == b).count();
            println!("{file} DIFFERS: it is not what the Rust answers here, from byte {common} on");
            false
        }
        Err(error) => {
            println!("{file} DIFFERS: it cannot be read: {error}");
            false
        }
    }
}

fn usage() -> ExitCode {
    eprintln!("usage: answers coefficients FILE [--check] | answers list FOLDER [--check]");
    ExitCode::from(2)
}
