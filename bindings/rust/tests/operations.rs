//! Every operation through the wrapper: the scope paper's worked cases, what a refusal leaves, and no panic on any input.

use xelamphoun::*;

const LOUDNESS: Switches = Switches {
    loudness: true,
    sample_peak: false,
    true_peak: false,
};

/// The filter of the worked cases: s0 = x + s1/2, y = s0.
const HALVING: Coefficients = Coefficients {
    a: [1.0, -0.5, 0.0, 0.0, 0.0],
    b: [1.0, 0.0, 0.0, 0.0, 0.0],
};

const MONO: &[Channel] = &[Channel::Used];

/// The float one unit in the last place below; `energy` is positive.
fn below(energy: f64) -> f64 {
    f64::from_bits(energy.to_bits() - 1)
}

#[test]
fn bins_and_readings() {
    assert_eq!(find_histogram_index(boundary(0)), 0);
    assert_eq!(find_histogram_index(f64::NAN), 0);
    assert_eq!(find_histogram_index(f64::INFINITY), BINS - 1);
    for i in 0..BINS {
        assert!(boundary(i) < energy(i) && energy(i) < boundary(i + 1));
        assert_eq!(find_histogram_index(energy(i)), i);
        // the nearest tenth: in the lower half of a bin, and from its table energy on
        let tenths = i as i32 - 700;
        assert_eq!(reading(boundary(i)), Ok(tenths));
        assert_eq!(reading(below(energy(i))), Ok(tenths));
        assert_eq!(reading(energy(i)), Ok(tenths + 1));
        assert_eq!(reading(below(boundary(i + 1))), Ok(tenths + 1));
    }
    assert!(boundary(BOUNDARIES).is_nan() && boundary(usize::MAX).is_nan());
    assert!(energy(BINS).is_nan() && energy(usize::MAX).is_nan());
    for off in [f64::NAN, 0.0, -1.0, boundary(BINS), f64::INFINITY] {
        assert_eq!(reading(off), Err(Refusal::Scale));
    }
}

#[test]
fn weighting() {
    let mut dest = [9.0; 4];
    let mut filter = Filter::new(1, 48_000, LOUDNESS, HALVING);
    assert_eq!(
        filter.process_i16(&[16384, 0, 0], MONO, &mut dest, 1),
        Ok(())
    );
    assert_eq!(dest, [9.0, 0.5, 0.25, 0.125]);

    let mut floats = Filter::new(1, 48_000, LOUDNESS, HALVING);
    assert_eq!(
        floats.process_f32(&[0.5, 0.0, 0.0], MONO, &mut dest, 0),
        Ok(())
    );
    assert_eq!(dest, [0.5, 0.25, 0.125, 0.125]);
    assert_eq!(floats, filter);
}

#[test]
fn seeding_moves_what_processing_moves() {
    let on = Switches {
        sample_peak: false,
        ..Switches::ALL
    };
    let rest = Filter::new(2, 44_100, on, HALVING);
    let map = [Channel::Used, Channel::Unused];
    let (mut processed, mut ints, mut floats) = (rest.clone(), rest.clone(), rest.clone());
    let mut dest = [0.0; 4];
    assert_eq!(
        processed.process_i16(&[16384, 8192, 0, 4096], &map, &mut dest, 0),
        Ok(())
    );
    assert_eq!(ints.seed_i16(&[16384, 8192, 0, 4096], &map), Ok(()));
    assert_eq!(floats.seed_f32(&[0.5, 0.25, 0.0, 0.125], &map), Ok(()));
    assert_eq!(
        (ints.state, ints.memory),
        (processed.state, processed.memory)
    );
    assert_eq!(ints, floats);
    assert_eq!(ints.true_peaks, rest.true_peaks);
    // the unused channel keeps its state
    assert_eq!(processed.state[5..10], [0.0; 5]);
}

#[test]
fn peaks() {
    let mut click = [0; 12];
    click[0] = i16::MIN;
    for (rate, peak) in [(44_100, 1.0), (192_000, 0.0)] {
        let on = Switches {
            loudness: false,
            ..Switches::ALL
        };
        let mut filter = Filter::new(1, rate, on, HALVING);
        assert_eq!(filter.process_i16(&click, MONO, &mut [], 0), Ok(()));
        assert_eq!((filter.peaks[0], filter.true_peaks[0]), (1.0, peak));
        assert_eq!(filter.state, [0.0; STATE]);
    }
}

#[test]
fn phases() {
    // coefficient 24 is 1: of phase 0, six frames back at factor 4 and twelve at factor 2
    let (mut twelve, mut more) = ([0.0; 12], [0.0; 24]);
    twelve[6] = 0.75;
    more[12] = 0.75;
    assert_eq!(phases_fourfold(&twelve)[0], 0.75);
    assert_eq!(phases_twofold(&more)[0], 0.75);
}

#[test]
fn interleaved_samples() {
    let ints = Interleaved::new(&[16384i16, 1, -32768, 2, 0, 3], 2);
    let floats = Interleaved::new(&[0.5f32, 1.0, -1.0, 2.0, 0.0, 3.0], 2);
    for (frame, sample) in [0.5, -1.0, 0.0].into_iter().enumerate() {
        assert_eq!(ints.sample(0, frame), Ok(Sample::At(sample)));
        assert_eq!(floats.sample(0, frame), Ok(Sample::At(sample)));
    }
    for (channel, frame) in [(2, 0), (0, 3), (usize::MAX, 0), (0, usize::MAX)] {
        assert_eq!(ints.sample(channel, frame), Ok(Sample::PastTheEnd));
        assert_eq!(floats.sample(channel, frame), Ok(Sample::PastTheEnd));
    }
    let parts = [
        (0, 3, 3),
        (1, 3, 2),
        (1, 2, 1),
        (2, 1, 0),
        (7, usize::MAX, 0),
    ];
    for (first, end, frames) in parts {
        let (ints, floats) = (
            Interleaved { first, end, ..ints },
            Interleaved {
                first,
                end,
                ..floats
            },
        );
        assert_eq!((ints.frames(), floats.frames()), (Ok(frames), Ok(frames)));
        assert_eq!((ints.channels(), floats.channels()), (2, 2));
    }
    let last = Interleaved { first: 2, ..ints };
    assert_eq!(last.sample(1, 0), Ok(Sample::At(3.0 / 32768.0)));

    for (channels, refusal) in [
        (0, Refusal::Channels),
        (9, Refusal::Channels),
        (4, Refusal::Samples),
    ] {
        let (ints, floats) = (
            Interleaved { channels, ..ints },
            Interleaved { channels, ..floats },
        );
        assert_eq!(
            (ints.frames(), floats.frames()),
            (Err(refusal), Err(refusal))
        );
        assert_eq!(ints.sample(0, 0), Err(refusal));
        assert_eq!(floats.channels(), channels);
    }
}

#[test]
fn a_refused_call_alters_nothing() {
    let filter = Filter::new(2, 48_000, Switches::ALL, HALVING);
    let map = [Channel::Used; 9];
    let calls: [(usize, usize, usize, usize, Refusal); 5] = [
        (9, 9, 9, 9, Refusal::Channels),
        (2, 3, 2, 4, Refusal::Samples),
        (2, 4, 3, 4, Refusal::Map),
        (2, 6, 2, 4, Refusal::Dest),
        (2, 0, 2, 0, Refusal::Dest),
    ];
    for (channels, samples, places, room, refusal) in calls {
        let before = Filter {
            channels,
            ..filter.clone()
        };
        let (mut after, mut dest) = (before.clone(), [7.0; 9]);
        let answer = after.process_f32(&[0.5; 9][..samples], &map[..places], &mut dest[..room], 0);
        assert_eq!(answer, Err(refusal));
        assert_eq!((after, dest), (before, [7.0; 9]));
    }
    let mut far = filter.clone();
    let answer = far.process_i16(&[1, 1], &map[..2], &mut [0.0; 4], usize::MAX);
    assert_eq!(answer, Err(Refusal::Dest));
}

#[test]
fn histograms() {
    let mut histogram = Histogram::new();
    assert_eq!(histogram.add(energy(400)), Ok(()));
    assert_eq!(histogram.add(0.0), Ok(()));
    assert_eq!(
        (
            histogram.counters[400],
            histogram.counters.iter().sum::<u32>()
        ),
        (1, 1)
    );

    let mut sum = histogram.clone();
    assert_eq!(sum.merge(&histogram), Ok(()));
    assert_eq!(sum.counters[400], 2);

    let mut full = histogram.clone();
    full.counters[400] = u32::MAX;
    let before = full.clone();
    assert_eq!(full.add(energy(400)), Err(Refusal::Full));
    assert_eq!(full.merge(&histogram), Err(Refusal::Full));
    assert_eq!(full, before);

    assert_eq!(sum.reset(), Ok(()));
    assert_eq!(sum, Histogram::default());
}

#[test]
fn queues() {
    let mut store = [0.0; 3];
    let mut queue = Queue::new(&mut store);
    for i in [500, 300, 400, 600] {
        assert_eq!(queue.add(energy(i)), Ok(()));
    }
    let full = QueueNumbers {
        maximum: 3,
        head: 1,
        held: 3,
    };
    assert_eq!(queue.numbers, full);
    assert_eq!(*queue.store, [energy(600), energy(300), energy(400)]);

    // a queue over no store is none
    assert_eq!(Queue::new(&mut []).add(1.0), Err(Refusal::Store));
}

#[test]
fn questions_over_a_histogram() {
    let mut histogram = Histogram::new();
    let set = Set::from(&histogram);
    assert_eq!(set.gate(), Err(Refusal::None));
    assert_eq!(set.gated_energy(), Err(Refusal::None));
    assert_eq!(set.relative_threshold(), Ok(Threshold::Loudness(-70.0)));
    assert_eq!(set.loudness_range(&mut []), Ok(Range::Nothing));

    histogram.counters[0] = 10;
    histogram.counters[400] = 10;
    let set = Set::from(&histogram);
    let gated = set.gate().unwrap();
    assert_eq!((gated.blocks, gated.sum), (10, 10.0 * energy(400)));
    assert_eq!(set.gated_energy(), Ok(gated.sum / 10.0));
    let threshold = (10.0 * energy(0) + 10.0 * energy(400)) / 20.0 * 0.1;
    assert_eq!(set.relative_threshold(), Ok(Threshold::Energy(threshold)));
    let (low, high) = (energy(400), energy(400));
    assert_eq!(set.loudness_range(&mut []), Ok(Range::Found { low, high }));
}

#[test]
fn questions_over_queues() {
    let store = [energy(500), energy(300), energy(400), 0.0];
    let numbers = QueueNumbers {
        maximum: 4,
        head: 0,
        held: 3,
    };
    let entries = [Entry::queue(0, numbers)];
    let set = Set {
        entries: &entries,
        counters: &[],
        energies: &store,
    };
    let mut work = [9.0; 4];
    assert_eq!(set.loudness_range(&mut work[..2]), Err(Refusal::Room));
    let (low, high) = (energy(300), energy(500));
    assert_eq!(
        set.loudness_range(&mut work),
        Ok(Range::Found { low, high })
    );
    assert_eq!(work, [energy(300), energy(400), energy(500), 9.0]);

    let with_nan = [energy(500), f64::NAN, energy(400), 0.0];
    let set = Set {
        energies: &with_nan,
        ..set
    };
    assert_eq!(set.loudness_range(&mut work), Ok(Range::NotANumber));
    assert_eq!(set.relative_threshold(), Err(Refusal::Nan));
    assert_eq!(set.gate(), Err(Refusal::Nan));
}

#[test]
fn sets() {
    let histogram = Histogram::new();
    let entry = [Entry::histogram(0)];
    let many = [Entry::histogram(0); MOST_HISTORIES + 1];
    let set = |entries| Set {
        entries,
        ..Set::from(&histogram)
    };
    assert_eq!(set(&many).gate(), Err(Refusal::Set));
    assert_eq!(set(&many[1..]).gate(), Err(Refusal::None));
    assert_eq!(set(&[]).gate(), Err(Refusal::None));
    assert_eq!(set(&many[..2]).relative_threshold(), Err(Refusal::Set));
    assert_eq!(set(&entry).gated_energy(), Err(Refusal::None));
    assert_eq!(
        set(&[Entry::histogram(usize::MAX)]).gated_energy(),
        Err(Refusal::Set)
    );
}

#[test]
fn histogram_records() {
    let mut histogram = Histogram::new();
    histogram.counters[3] = 0x0102_0304;
    let bytes = histogram.record().unwrap();
    assert_eq!(
        (&bytes[..6], &bytes[18..22]),
        (&[0xA2, 0x0F, 0, 0, 1, 0][..], &[4, 3, 2, 1][..])
    );

    let mut back = Histogram::new();
    assert_eq!(back.read(&bytes), Ok(()));
    assert_eq!(back, histogram);
    assert_eq!(back.read(&bytes[1..]), Err(Refusal::Kind));
    assert_eq!(back.read(&bytes[..5]), Err(Refusal::Length));
    assert_eq!(back, histogram);

    let mut out = [7; HISTOGRAM_RECORD + 1];
    assert_eq!(histogram.write(&mut out), Ok(HISTOGRAM_RECORD));
    assert_eq!(
        (&out[..HISTOGRAM_RECORD], out[HISTOGRAM_RECORD]),
        (&bytes[..], 7)
    );
}

#[test]
fn queue_records() {
    let mut store = [0.0; 3];
    let mut queue = Queue::new(&mut store);
    for i in [500, 300, 400, 600] {
        queue.add(energy(i)).unwrap();
    }
    let mut out = [0; QUEUE_RECORD_HEAD + 24];
    assert_eq!(queue.write(&mut out[1..]), Err(Refusal::Room));
    assert_eq!(queue.write(&mut out), Ok(out.len()));

    let (mut longer, mut again) = ([0.0; 4], [0.0; 3]);
    assert_eq!(Queue::new(&mut longer).read(&out), Err(Refusal::Store));
    let mut back = Queue::new(&mut again);
    assert_eq!(back.read(&out), Ok(()));
    let read = QueueNumbers {
        maximum: 3,
        head: 0,
        held: 3,
    };
    assert_eq!(back.numbers, read);
    assert_eq!(*back.store, [energy(300), energy(400), energy(600)]);
    out[6] = 0;
    assert_eq!(back.read(&out), Err(Refusal::Content));
}

#[test]
fn third_histogram_records() {
    let mut histogram = Histogram::new();
    histogram.counters[3] = 0x0102_0304;
    let mut bytes = [7; HISTOGRAM_RECORD + 1];
    assert_eq!(histogram.write_third(&mut bytes[2..]), Err(Refusal::Room));
    assert_eq!(histogram.write_third(&mut bytes), Ok(HISTOGRAM_RECORD));
    assert_eq!(bytes[HISTOGRAM_RECORD], 7);
    let bytes = &bytes[..HISTOGRAM_RECORD];
    // length and kind stay low byte first
    assert_eq!(
        (&bytes[..6], &bytes[18..22]),
        (&[0xA2, 0x0F, 0, 0, 1, 1][..], &[1, 2, 3, 4][..])
    );

    let mut back = Histogram::new();
    assert_eq!(back.read(bytes), Err(Refusal::Kind));
    assert_eq!(back, Histogram::new());
    assert_eq!(back.read_third(bytes), Ok(()));
    assert_eq!(back, histogram);
    let ours = histogram.record().unwrap();
    assert_eq!(back.read_third(&ours), Err(Refusal::Kind));
}

#[test]
fn third_queue_records() {
    let mut store = [0.0; 3];
    let mut queue = Queue::new(&mut store);
    for energy in [1.0, f64::NAN] {
        queue.add(energy).unwrap();
    }
    let mut out = [0; QUEUE_RECORD_HEAD + 16];
    assert_eq!(queue.write_third(&mut out[1..]), Err(Refusal::Room));
    assert_eq!(queue.write_third(&mut out), Ok(out.len()));
    let numbers = [26, 0, 0, 0, 2, 1, 0, 0, 0, 3, 0, 0, 0, 2];
    assert_eq!(out[..QUEUE_RECORD_HEAD], numbers);
    let energies = [0x3F, 0xF0, 0, 0, 0, 0, 0, 0, 0x7F, 0xF8, 0, 0, 0, 0, 0, 0];
    assert_eq!(out[QUEUE_RECORD_HEAD..], energies);

    let (mut longer, mut again) = ([0.0; 4], [9.0; 3]);
    assert_eq!(
        Queue::new(&mut longer).read_third(&out),
        Err(Refusal::Store)
    );
    let mut back = Queue::new(&mut again);
    assert_eq!(back.read(&out), Err(Refusal::Kind));
    assert_eq!(back.read_third(&out), Ok(()));
    assert_eq!(back.numbers, queue.numbers);
    assert!(back.store[0] == 1.0 && back.store[1].is_nan() && back.store[2] == 9.0);
    out[9] = 0;
    assert_eq!(back.read_third(&out), Err(Refusal::Content));
}

#[test]
fn conversions() {
    let mut histogram = Histogram::new();
    (0..)
        .zip(&mut histogram.counters)
        .for_each(|(i, count)| *count = 1_000_003 * i);
    let (ours, mut third) = (histogram.record().unwrap(), [0; HISTOGRAM_RECORD]);
    histogram.write_third(&mut third).unwrap();
    let mut store = [0.0; 3];
    let mut queue = Queue::new(&mut store);
    (300..305).for_each(|bin| queue.add(energy(bin)).unwrap());
    let (mut held, mut third_held) = ([0; 38], [0; 38]);
    queue.write(&mut held).unwrap();
    queue.write_third(&mut third_held).unwrap();

    let pairs = [
        (1, &ours[..], 257, &third[..]),
        (2, &held, 258, &third_held),
    ];
    for (kind, ours, other, third) in pairs {
        for (kind, from, to) in [(kind, ours, third), (other, third, ours)] {
            let mut out = [7; HISTOGRAM_RECORD + 1];
            assert_eq!(convert_record(kind, from, &mut out), Ok(to.len()));
            assert_eq!((&out[..to.len()], out[to.len()]), (to, 7));
        }
    }
}

#[test]
fn a_refused_conversion_writes_nothing() {
    let mut record = [10, 0, 0, 0, 2, 1, 0, 0, 0, 1, 0, 0, 0, 0];
    let mut out = [7; 14];
    for kind in [0, 1, 2, 3, 256, 257, 259, 513, u16::MAX] {
        assert_eq!(convert_record(kind, &record, &mut out), Err(Refusal::Kind));
        let short = convert_record(kind, &record[..5], &mut out);
        assert_eq!(short, Err(Refusal::Length));
    }
    assert_eq!(
        convert_record(258, &record, &mut out[1..]),
        Err(Refusal::Room)
    );
    // what the reader refuses comes first
    record[9] = 0;
    assert_eq!(
        convert_record(258, &record, &mut out[1..]),
        Err(Refusal::Content)
    );
    assert_eq!(out, [7; 14]);
}

#[test]
fn refusals_have_the_papers_numbers() {
    assert_eq!(Refusal::ALL.len(), 15);
    for (number, refusal) in (1..).zip(Refusal::ALL) {
        assert_eq!(refusal.number(), number);
    }
    assert_eq!(Refusal::Room.to_string(), "15 ROOM");
}

/// Numbers of a fixed sequence (xorshift), with those at the edges among them.
struct Any(u64);

impl Any {
    fn bits(&mut self) -> u64 {
        self.0 ^= self.0 << 13;
        self.0 ^= self.0 >> 7;
        self.0 ^= self.0 << 17;
        self.0
    }

    fn below(&mut self, end: usize) -> usize {
        (self.bits() % end as u64) as usize
    }

    fn number(&mut self) -> usize {
        match self.below(6) {
            0 => usize::MAX - self.below(3),
            1 => self.bits() as usize,
            _ => self.below(12),
        }
    }

    fn float(&mut self) -> f64 {
        match self.below(4) {
            0 => f64::from_bits(self.bits()),
            1 => f64::NAN,
            _ => energy(self.below(BINS)),
        }
    }

    fn floats<const N: usize>(&mut self) -> [f64; N] {
        [(); N].map(|()| self.float())
    }

    fn numbers(&mut self) -> QueueNumbers {
        QueueNumbers {
            maximum: self.number(),
            head: self.number(),
            held: self.number(),
        }
    }

    fn entry(&mut self) -> Entry {
        let start = self.number();
        match self.below(2) {
            0 => Entry::histogram(start),
            _ => Entry::queue(start, self.numbers()),
        }
    }

    fn filter(&mut self) -> Filter {
        Filter {
            channels: self.number(),
            rate: self.bits() as u32,
            on: Switches {
                loudness: self.below(2) == 0,
                sample_peak: self.below(2) == 0,
                true_peak: self.below(2) == 0,
            },
            coefficients: Coefficients {
                a: self.floats(),
                b: self.floats(),
            },
            state: self.floats(),
            peaks: self.floats(),
            memory: self.floats().map(|x| x as f32),
            true_peaks: self.floats().map(|x| x as f32),
        }
    }
}

#[test]
fn any_filter_call_answers() {
    let mut any = Any(1);
    let (mut done, mut refused) = (0, 0);
    for _ in 0..20_000 {
        let mut filter = any.filter();
        let (data, floats) = (
            [any.bits() as i16; 24],
            any.floats::<24>().map(|x| x as f32),
        );
        let map = [Channel::Used, Channel::Unused, Channel::Used].repeat(3);
        let (samples, places) = (
            any.below(25),
            if any.below(3) == 0 {
                any.below(10)
            } else {
                filter.channels.min(9)
            },
        );
        let (mut dest, room, start) = ([0.0; 32], any.below(33), any.number());
        let (map, dest) = (&map[..places], &mut dest[..room]);
        let answer = match any.below(4) {
            0 => filter.process_i16(&data[..samples], map, dest, start),
            1 => filter.process_f32(&floats[..samples], map, dest, start),
            2 => filter.seed_i16(&data[..samples], map),
            _ => filter.seed_f32(&floats[..samples], map),
        };
        *if answer.is_ok() {
            &mut done
        } else {
            &mut refused
        } += 1;
    }
    assert!(
        done > 1000 && refused > 1000,
        "{done} done, {refused} refused"
    );
}

#[test]
fn any_history_call_answers() {
    let mut any = Any(2);
    let histogram = Histogram::new();
    for _ in 0..20_000 {
        let (mut store, length) = (any.floats::<12>(), any.below(13));
        let mut bytes = [0; 40].map(|_: u8| any.bits() as u8);
        let mut queue = Queue {
            numbers: any.numbers(),
            store: &mut store[..length],
        };
        let _ = queue.add(any.float());
        let _ = queue.write(&mut bytes[..any.below(41)]);
        let _ = queue.read(&bytes[..any.below(41)]);
        let _ = queue.write_third(&mut bytes[..any.below(41)]);
        let _ = queue.read_third(&bytes[..any.below(41)]);
        let _ = Histogram::new().read(&bytes[..any.below(41)]);
        let _ = Histogram::new().read_third(&bytes[..any.below(41)]);
        let kind = u16::from_le_bytes([bytes[4], bytes[5]]);
        let _ = convert_record(kind, &bytes[..any.below(41)], &mut [0; 40][..any.below(41)]);

        let entries = [(); 20].map(|()| any.entry());
        let set = Set {
            entries: &entries[..any.below(21)],
            counters: &histogram.counters[..any.below(BINS + 1)],
            energies: &store[..any.below(13)],
        };
        let mut work = [0.0; 12];
        let _ = (set.gate(), set.gated_energy(), set.relative_threshold());
        let _ = set.loudness_range(&mut work[..any.below(13)]);
        let _ = (find_histogram_index(any.float()), reading(any.float()));

        let data = [7i16; 12];
        let part = Interleaved {
            data: &data[..any.below(13)],
            channels: any.number(),
            first: any.number(),
            end: any.number(),
        };
        let _ = (
            part.channels(),
            part.frames(),
            part.sample(any.number(), any.number()),
        );
    }
}
