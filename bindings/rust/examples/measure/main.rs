//! measure [--raw CHANNELS RATE] [--record OUT] [--range-record OUT] FILE
//!
//! The whole job of bindings/c/measure.c over the safe wrapper, line for line the same readings: weighs the samples of FILE (- is
//! standard input), takes sample and true peaks, makes the blocks' energies, counts them in histograms, asks gate and range,
//! writes each histogram's record and reads it back. --record keeps that of the gate, of 400 ms blocks, and --range-record that of
//! the range, of 3 s blocks. FILE is a WAV file of 16-bit PCM or 32-bit float samples; with --raw it is a stream of 16-bit
//! samples, low byte first.

mod measurement;
mod readings;
mod sound;

use measurement::Measurement;
use sound::Sound;
use std::fs::{self, File};
use std::io::{self, BufReader, Read, Write};
use std::process::exit;
use xelamphoun::Histogram;

#[derive(Default)]
struct Options {
    file: String,
    /// Where the record of the gate is to be kept, and that of the range.
    record: Option<String>,
    range_record: Option<String>,
    /// Channels and rate of a raw stream.
    raw: Option<(usize, u32)>,
}

fn usage() -> ! {
    eprintln!("usage: measure [--raw CHANNELS RATE] [--record OUT] [--range-record OUT] FILE");
    exit(2)
}

/// A number of decimal digits and nothing else, at most `most`.
fn number_of(word: Option<String>, most: u64) -> u64 {
    let digits = word.filter(|word| word.bytes().all(|b| b.is_ascii_digit()));
    let number = digits.and_then(|word| word.parse().ok());
    number
        .filter(|&number| number <= most)
        .unwrap_or_else(|| usage())
}

fn options_of(mut words: impl Iterator<Item = String>) -> Options {
    let mut options = Options::default();
    loop {
        match words.next() {
            Some(word) if word == "--raw" => {
                let channels = number_of(words.next(), u64::from(u16::MAX)) as usize;
                options.raw = Some((
                    channels,
                    number_of(words.next(), u64::from(u32::MAX)) as u32,
                ));
            }
            Some(word) if word == "--record" => options.record = words.next().or_else(|| usage()),
            Some(word) if word == "--range-record" => {
                options.range_record = words.next().or_else(|| usage());
            }
            Some(word) if !word.starts_with("--") && words.next().is_none() => {
                options.file = word;
                return options;
            }
            _ => usage(),
        }
    }
}

fn open(options: &Options) -> Result<Sound<Box<dyn Read>>, String> {
    let file = &options.file;
    let reader: Box<dyn Read> = match file.as_str() {
        "-" => Box::new(io::stdin().lock()),
        name => Box::new(BufReader::new(
            File::open(name).map_err(|_| format!("{file}: it cannot be opened"))?,
        )),
    };
    match options.raw {
        Some((channels, rate)) => Ok(Sound::raw(reader, channels, rate)),
        None => Sound::wav(reader).map_err(|wrong| format!("{file}: {wrong}")),
    }
}

/// A histogram as a record, and back.
fn record(line: &str, histogram: &Histogram, name: &Option<String>) -> Result<String, String> {
    let refused = |call: &str, refusal| format!("{call} is refused: {refusal}");
    let bytes = histogram
        .record()
        .map_err(|refusal| refused("write", refusal))?;
    if let Some(name) = name {
        fs::write(name, bytes).map_err(|_| format!("{name}: it cannot be written"))?;
    }
    let mut back = Histogram::new();
    back.read(&bytes)
        .map_err(|refusal| refused("read", refusal))?;
    if back != *histogram {
        return Err("the record is read back as another".into());
    }
    Ok(format!(
        "{line:<16}{} bytes, read back the same\n",
        bytes.len()
    ))
}

fn measure(options: &Options) -> Result<String, String> {
    let mut sound = open(options)?;
    let measurement = Measurement::of(&mut sound)?;
    let (blocks, short_blocks) = (&measurement.blocks, &measurement.short_blocks);
    let readings =
        readings::readings(&measurement, sound.kind).map_err(|error| error.to_string())?;
    Ok(readings
        + &record("record", &blocks.histogram, &options.record)?
        + &record(
            "range record",
            &short_blocks.histogram,
            &options.range_record,
        )?)
}

fn main() {
    let words = std::env::args_os().skip(1);
    let options = options_of(words.map(|word| word.to_string_lossy().into_owned()));
    let printed = measure(&options).and_then(|readings| {
        let written = io::stdout().write_all(readings.as_bytes());
        written.map_err(|error| error.to_string())
    });
    if let Err(wrong) = printed {
        eprintln!("measure: {wrong}");
        exit(1);
    }
}
