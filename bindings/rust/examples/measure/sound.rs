//! Samples of a WAV file or of a raw stream, read in order.

use std::io::Read;

/// The kinds of samples that are read: those that the library takes.
#[derive(Clone, Copy, Debug, PartialEq, Eq)]
pub enum Kind {
    I16,
    F32,
}

pub enum Samples {
    I16(Vec<i16>),
    F32(Vec<f32>),
}

impl Samples {
    pub fn len(&self) -> usize {
        match self {
            Samples::I16(samples) => samples.len(),
            Samples::F32(samples) => samples.len(),
        }
    }
}

/// What is wrong with a sound.
pub type Wrong = &'static str;

pub struct Sound<R> {
    reader: R,
    pub kind: Kind,
    pub channels: usize,
    pub rate: u32,
    /// Bytes of samples still to come; none where they last until the end.
    left: Option<u64>,
}

/// The formats of a WAV file's samples; the third says that the format stands further on in the chunk.
const PCM: u16 = 1;
const FLOAT: u16 = 3;
const EXTENSIBLE: u16 = 0xFFFE;

/// What a chunk's length says that was not known when the file was begun.
const UNKNOWN_LENGTH: u32 = 0xFFFF_FFFF;

fn u16_at(bytes: &[u8], at: usize) -> u16 {
    u16::from_le_bytes([bytes[at], bytes[at + 1]])
}

fn u32_at(bytes: &[u8], at: usize) -> u32 {
    u32::from_le_bytes([bytes[at], bytes[at + 1], bytes[at + 2], bytes[at + 3]])
}

/// The next bytes, at most so many.
fn take(reader: &mut impl Read, length: u64) -> Result<Vec<u8>, Wrong> {
    let mut bytes = Vec::new();
    let read = reader.take(length).read_to_end(&mut bytes);
    read.map(|_| bytes).map_err(|_| "it cannot be read")
}

/// Reads past bytes, since a stream cannot be sought in, and says whether there were so many.
fn skip(reader: &mut impl Read, length: u64) -> Result<bool, Wrong> {
    let passed = std::io::copy(&mut reader.take(length), &mut std::io::sink());
    passed.map(|n| n == length).map_err(|_| "it cannot be read")
}

/// The chunk `fmt `: 16 bytes, or 40 where it is extensible, whose format is then at 24. Answers kind, channels and rate.
fn read_format(reader: &mut impl Read, length: u32) -> Result<(Kind, usize, u32), Wrong> {
    let wanted = length.min(40);
    if length < 16 {
        return Err("its format is too short");
    }
    let mut bytes = take(reader, u64::from(wanted))?;
    let rest = u64::from(length - wanted) + u64::from(length % 2);
    if bytes.len() < wanted as usize || !skip(reader, rest)? {
        return Err("it ends within its format");
    }
    bytes.resize(40, 0);
    let format = match u16_at(&bytes, 0) {
        EXTENSIBLE => u16_at(&bytes, 24),
        format => format,
    };
    let kind = match (format, u16_at(&bytes, 14)) {
        (PCM, 16) => Kind::I16,
        (FLOAT, 32) => Kind::F32,
        _ => return Err("its samples are neither 16-bit PCM nor 32-bit float"),
    };
    Ok((kind, usize::from(u16_at(&bytes, 2)), u32_at(&bytes, 4)))
}

impl<R: Read> Sound<R> {
    /// A WAV file of 16-bit PCM or 32-bit float samples.
    pub fn wav(mut reader: R) -> Result<Sound<R>, Wrong> {
        let head = take(&mut reader, 12)?;
        if head.len() < 12 || &head[..4] != b"RIFF" || &head[8..] != b"WAVE" {
            return Err("it is not a WAV file");
        }
        // chunks of any kind may stand before the samples
        let mut format = None;
        loop {
            let head = take(&mut reader, 8)?;
            if head.len() < 8 {
                return Err("it has no samples");
            }
            let length = u32_at(&head, 4);
            match &head[..4] {
                b"data" => {
                    let (kind, channels, rate) =
                        format.ok_or("its samples come before their format")?;
                    let left = Some(u64::from(length)).filter(|_| length != UNKNOWN_LENGTH);
                    return Ok(Sound {
                        reader,
                        kind,
                        channels,
                        rate,
                        left,
                    });
                }
                b"fmt " => format = Some(read_format(&mut reader, length)?),
                _ => {
                    if !skip(&mut reader, u64::from(length) + u64::from(length % 2))? {
                        return Err("it has no samples");
                    }
                }
            }
        }
    }

    /// A stream of 16-bit samples, low byte first, and nothing else.
    pub fn raw(reader: R, channels: usize, rate: u32) -> Sound<R> {
        Sound {
            reader,
            kind: Kind::I16,
            channels,
            rate,
            left: None,
        }
    }

    /// The next samples: fewer than `most` at the end alone.
    pub fn read(&mut self, most: usize) -> Result<Samples, Wrong> {
        let width = match self.kind {
            Kind::I16 => 2,
            Kind::F32 => 4,
        };
        let most = most as u64 * width;
        let wanted = self.left.map_or(most, |left| left.min(most));
        let bytes = take(&mut self.reader, wanted)?;
        let got = bytes.len() as u64;
        if got < wanted && self.left.is_some() {
            return Err("it ends before its samples do");
        }
        if got % width != 0 {
            return Err("it ends within a sample");
        }
        self.left = self.left.map(|left| left - got);
        Ok(match self.kind {
            Kind::I16 => Samples::I16(bytes.chunks_exact(2).map(|b| u16_at(b, 0) as i16).collect()),
            Kind::F32 => Samples::F32(
                bytes
                    .chunks_exact(4)
                    .map(|b| f32::from_bits(u32_at(b, 0)))
                    .collect(),
            ),
        })
    }
}
