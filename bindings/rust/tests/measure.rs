//! The whole job of the example, on sounds whose readings are known.

#[path = "../examples/measure/measurement.rs"]
mod measurement;
#[path = "../examples/measure/readings.rs"]
mod readings;
#[path = "../examples/measure/sound.rs"]
mod sound;

use measurement::Measurement;
use readings::{loudness, readings};
use sound::{Kind, Sound};
use xelamphoun::{reading, Range, Refusal, Set};

/// A stereo tone of 1000 Hz at 48000, in steps of seconds and decibels.
fn tone(steps: &[(usize, f64)]) -> Vec<f32> {
    let levels = steps.iter().flat_map(|&(seconds, decibels)| {
        std::iter::repeat(10f64.powf(decibels / 20.0)).take(48_000 * seconds)
    });
    let wave = levels
        .enumerate()
        .map(|(frame, level)| level * (2.0 * std::f64::consts::PI * frame as f64 / 48.0).sin());
    wave.flat_map(|sample| [sample as f32; 2]).collect()
}

fn chunk(name: &[u8; 4], content: &[u8]) -> Vec<u8> {
    let mut chunk = name.to_vec();
    chunk.extend((content.len() as u32).to_le_bytes());
    chunk.extend(content);
    chunk.resize(chunk.len() + content.len() % 2, 0);
    chunk
}

fn format(format: u16, channels: u16, bits: u16) -> Vec<u8> {
    let mut content = Vec::new();
    content.extend(format.to_le_bytes());
    content.extend(channels.to_le_bytes());
    content.extend(48_000u32.to_le_bytes());
    // bytes a second and a frame, which nothing looks at
    content.extend([0; 6]);
    content.extend(bits.to_le_bytes());
    content
}

fn wav(chunks: &[Vec<u8>]) -> Vec<u8> {
    let mut file = b"WAVE".to_vec();
    file.extend(chunks.concat());
    chunk(b"RIFF", &file)
}

fn float_wav(samples: &[f32]) -> Vec<u8> {
    let bytes: Vec<u8> = samples
        .iter()
        .flat_map(|sample| sample.to_le_bytes())
        .collect();
    wav(&[chunk(b"fmt ", &format(3, 2, 32)), chunk(b"data", &bytes)])
}

fn measured(wav: &[u8]) -> Result<Measurement, String> {
    Measurement::of(&mut Sound::wav(wav)?)
}

#[test]
fn a_tone_of_minus_23_has_minus_23() {
    // the first test signal of EBU Tech 3341, which allows 0.1 LU
    let m = measured(&float_wav(&tone(&[(20, -23.0)]))).unwrap();
    assert_eq!(
        (m.frames, m.blocks.number, m.short_blocks.number),
        (960_000, 197, 18)
    );
    let energy = Set::from(&m.blocks.histogram).gated_energy().unwrap();
    let integrated = loudness(energy);
    assert!((integrated + 23.0).abs() <= 0.1, "{integrated}");
    // the reading is a nearest tenth; a bin's own energy stands half way between two
    let tenths = f64::from(reading(energy).unwrap());
    assert!((tenths - 10.0 * integrated).abs() <= 0.5 + 1e-9, "{tenths}");
}

#[test]
fn two_levels_ten_apart_have_a_range_of_ten() {
    // the first test signal of EBU Tech 3342, which allows 1 LU
    let m = measured(&float_wav(&tone(&[(20, -20.0), (20, -30.0)]))).unwrap();
    match Set::from(&m.short_blocks.histogram).loudness_range(&mut []) {
        Ok(Range::Found { low, high }) => {
            let range = loudness(high) - loudness(low);
            assert!((range - 10.0).abs() <= 1.0, "{range}");
        }
        other => panic!("{other:?}"),
    }
}

#[test]
fn no_whole_block_is_told_as_a_refusal() {
    let m = measured(&float_wav(&[0.5; 2])).unwrap();
    assert_eq!(
        Set::from(&m.blocks.histogram).gated_energy(),
        Err(Refusal::None)
    );
    let lines = readings(&m, Kind::F32).unwrap();
    assert!(
        lines.contains("integrated      refused: 9 NONE\n"),
        "{lines}"
    );
    assert!(lines.contains("range           nothing\n"), "{lines}");
}

#[test]
fn sounds_that_the_library_refuses() {
    let nine = wav(&[chunk(b"fmt ", &format(1, 9, 16)), chunk(b"data", &[0; 18])]);
    assert_eq!(
        measured(&nine).err().as_deref(),
        Some("the number of channels is refused: 1 CHANNELS")
    );
    let uneven = wav(&[chunk(b"fmt ", &format(1, 2, 16)), chunk(b"data", &[0; 6])]);
    assert_eq!(
        measured(&uneven).err().as_deref(),
        Some("process is refused: 2 SAMPLES")
    );
    let still = Measurement::of(&mut Sound::raw(&[0u8; 4][..], 1, 15));
    assert_eq!(
        still.err().as_deref(),
        Some("a rate of 15: it must be 16 to 2822400")
    );
}

#[test]
fn forms_of_files() {
    // a chunk before, of odd length, and a format that stands further on
    let mut extensible = format(0xFFFE, 2, 16);
    extensible.extend([22, 0, 16, 0, 3, 0, 0, 0, 1, 0]);
    extensible.extend([0; 14]);
    let data = chunk(b"data", &[0, 0x40, 0, 0xC0]);
    let other = chunk(b"LIST", &[1, 2, 3]);
    let file = wav(&[other, chunk(b"fmt ", &extensible), data.clone()]);
    let m = measured(&file).unwrap();
    assert_eq!(
        (m.frames, m.filter.peaks[0], m.filter.peaks[1]),
        (1, 0.5, 0.5)
    );

    // a length that was not known, as a stream has it
    let mut unknown = file.clone();
    let at = unknown.len() - 8;
    unknown[at..at + 4].fill(0xFF);
    assert_eq!(measured(&unknown).unwrap().frames, 1);

    let plain = chunk(b"fmt ", &format(1, 2, 16));
    let wrong = [
        (b"RIFX".to_vec(), "it is not a WAV file"),
        (wav(std::slice::from_ref(&plain)), "it has no samples"),
        (
            wav(&[data.clone(), plain.clone()]),
            "its samples come before their format",
        ),
        (wav(&[chunk(b"fmt ", &[0; 14])]), "its format is too short"),
        (
            wav(&[chunk(b"fmt ", &format(1, 2, 24)), data]),
            "its samples are neither 16-bit PCM nor 32-bit float",
        ),
        (
            wav(&[plain.clone(), chunk(b"data", &[0; 3])]),
            "the sound: it ends within a sample",
        ),
        (
            file[..file.len() - 1].to_vec(),
            "the sound: it ends before its samples do",
        ),
        (file[..40].to_vec(), "it ends within its format"),
    ];
    for (bytes, what) in wrong {
        assert_eq!(measured(&bytes).err().as_deref(), Some(what));
    }
    // no prefix of a file and no damaged byte stops the reader
    for at in 0..file.len() {
        let mut damaged = file.clone();
        damaged[at] ^= 0xFF;
        for bytes in [&file[..at], &damaged] {
            let _ = Sound::wav(bytes).map(|mut sound| sound.read(10));
        }
    }
}
