//! Debian's libebur128, the C library that the Rust was ported from, as its header ebur128.h declares it.
//! It is looked for when the program runs: where it is not installed there is none, and nothing else changes.

use std::ffi::{c_char, c_int, c_short, c_uint, c_ulong, c_void};
use std::ptr;
use std::sync::OnceLock;

use ebur128::Channel;

pub const MODE_M: c_int = 1;
pub const MODE_I: c_int = 4 | MODE_M;
pub const MODE_LRA: c_int = 8 | 2 | MODE_M;
/// Both peaks weigh the samples too: M is part of them.
pub const MODE_SAMPLE_PEAK: c_int = 16 | MODE_M;
pub const MODE_TRUE_PEAK: c_int = 32 | MODE_SAMPLE_PEAK;
pub const MODE_HISTOGRAM: c_int = 64;

type State = *mut c_void;
type Question = unsafe extern "C" fn(State, *mut f64) -> c_int;
type OfChannel = unsafe extern "C" fn(State, c_uint, *mut f64) -> c_int;
type OfSeveral = unsafe extern "C" fn(*mut State, usize, *mut f64) -> c_int;

extern "C" {
    fn dlopen(name: *const c_char, flags: c_int) -> *mut c_void;
    fn dlsym(library: *mut c_void, name: *const c_char) -> *mut c_void;
}

const RTLD_NOW: c_int = 2;

macro_rules! library {
    ($($name:ident $symbol:literal: $type:ty;)*) => {
        struct Library {
            $($name: $type,)*
        }

        impl Library {
            /// None where the library or one of its functions is missing.
            fn open() -> Option<Library> {
                // Safety: the names end in 0, and each function has the type that the header gives it.
                unsafe {
                    let library = dlopen(b"libebur128.so.1\0".as_ptr().cast(), RTLD_NOW);
                    if library.is_null() {
                        return None;
                    }
                    $(let $name = dlsym(library, concat!($symbol, "\0").as_ptr().cast());)*
                    if [$($name),*].iter().any(|symbol| symbol.is_null()) {
                        return None;
                    }
                    Some(Library {
                        $($name: std::mem::transmute::<*mut c_void, $type>($name),)*
                    })
                }
            }
        }
    };
}

library! {
    version "ebur128_get_version": unsafe extern "C" fn(*mut c_int, *mut c_int, *mut c_int);
    init "ebur128_init": unsafe extern "C" fn(c_uint, c_ulong, c_int) -> State;
    destroy "ebur128_destroy": unsafe extern "C" fn(*mut State);
    set_channel "ebur128_set_channel": unsafe extern "C" fn(State, c_uint, c_int) -> c_int;
    add_short "ebur128_add_frames_short": unsafe extern "C" fn(State, *const c_short, usize) -> c_int;
    add_float "ebur128_add_frames_float": unsafe extern "C" fn(State, *const f32, usize) -> c_int;
    global "ebur128_loudness_global": Question;
    global_multiple "ebur128_loudness_global_multiple": OfSeveral;
    range "ebur128_loudness_range": Question;
    range_multiple "ebur128_loudness_range_multiple": OfSeveral;
    threshold "ebur128_relative_threshold": Question;
    momentary "ebur128_loudness_momentary": Question;
    shortterm "ebur128_loudness_shortterm": Question;
    sample_peak "ebur128_sample_peak": OfChannel;
    true_peak "ebur128_true_peak": OfChannel;
}

fn library() -> Option<&'static Library> {
    static LIBRARY: OnceLock<Option<Library>> = OnceLock::new();
    LIBRARY.get_or_init(Library::open).as_ref()
}

/// Its version, where it is installed.
pub fn version() -> Option<String> {
    let (mut major, mut minor, mut patch) = (0, 0, 0);
    // Safety: three places to write to.
    unsafe { (library()?.version)(&mut major, &mut minor, &mut patch) };
    Some(format!("{major}.{minor}.{patch}"))
}

/// Whether it takes part, in a line.
pub fn status() -> String {
    match version() {
        Some(version) => format!("libebur128 {version} is installed and takes part"),
        None => "libebur128 is not installed (Debian's libebur128-1) and takes no part".to_string(),
    }
}

/// A measurement. It stays where it was made: the library's state is its own.
pub struct Meter {
    library: &'static Library,
    state: State,
    channels: usize,
}

/// A kind of sample that the library takes.
pub trait Frames: Sized {
    fn add(meter: &mut Meter, data: &[Self]);
}

impl Frames for i16 {
    fn add(meter: &mut Meter, data: &[i16]) {
        let frames = data.len() / meter.channels;
        // Safety: so many frames of so many channels.
        let code = unsafe { (meter.library.add_short)(meter.state, data.as_ptr(), frames) };
        assert_eq!(code, 0);
    }
}

impl Frames for f32 {
    fn add(meter: &mut Meter, data: &[f32]) {
        let frames = data.len() / meter.channels;
        // Safety: so many frames of so many channels.
        let code = unsafe { (meter.library.add_float)(meter.state, data.as_ptr(), frames) };
        assert_eq!(code, 0);
    }
}

impl Meter {
    /// A new measurement, where the library is installed.
    pub fn new(channels: usize, rate: u32, mode: c_int) -> Option<Self> {
        let library = library()?;
        // Safety: any numbers; null where it refuses.
        let state = unsafe { (library.init)(channels as c_uint, c_ulong::from(rate), mode) };
        assert!(
            !state.is_null(),
            "libebur128 refuses {channels} channels at {rate}"
        );
        Some(Meter {
            library,
            state,
            channels,
        })
    }

    /// The library numbers its channels as the Rust does.
    pub fn set_channel(&mut self, number: usize, channel: Channel) {
        // Safety: a state of its own.
        let code =
            unsafe { (self.library.set_channel)(self.state, number as c_uint, channel as c_int) };
        assert_eq!(code, 0);
    }

    fn asked(&self, question: Question) -> f64 {
        let mut answer = 0.0;
        // Safety: a state of its own, and a place to write to.
        let code = unsafe { question(self.state, &mut answer) };
        assert_eq!(code, 0);
        answer
    }

    fn of_channel(&self, question: OfChannel, channel: usize) -> f64 {
        let mut answer = 0.0;
        // Safety: as above; a channel that is not there is refused.
        let code = unsafe { question(self.state, channel as c_uint, &mut answer) };
        assert_eq!(code, 0);
        answer
    }

    pub fn global(&self) -> f64 {
        self.asked(self.library.global)
    }

    pub fn range(&self) -> f64 {
        self.asked(self.library.range)
    }

    pub fn threshold(&self) -> f64 {
        self.asked(self.library.threshold)
    }

    pub fn momentary(&self) -> f64 {
        self.asked(self.library.momentary)
    }

    pub fn shortterm(&self) -> f64 {
        self.asked(self.library.shortterm)
    }

    pub fn sample_peak(&self, channel: usize) -> f64 {
        self.of_channel(self.library.sample_peak, channel)
    }

    pub fn true_peak(&self, channel: usize) -> f64 {
        self.of_channel(self.library.true_peak, channel)
    }

    /// The range of several, none of which is left out.
    pub fn range_of(meters: &[&Meter]) -> f64 {
        Meter::of_several(meters, |library| library.range_multiple)
    }

    pub fn global_of(meters: &[&Meter]) -> f64 {
        Meter::of_several(meters, |library| library.global_multiple)
    }

    fn of_several(meters: &[&Meter], question: impl Fn(&Library) -> OfSeveral) -> f64 {
        let mut states: Vec<State> = meters.iter().map(|meter| meter.state).collect();
        let question = question(meters[0].library);
        let mut answer = 0.0;
        // Safety: so many states, and a place to write to.
        let code = unsafe { question(states.as_mut_ptr(), states.len(), &mut answer) };
        assert_eq!(code, 0);
        answer
    }
}

impl Drop for Meter {
    fn drop(&mut self) {
        // Safety: its own state, which nothing else holds.
        unsafe { (self.library.destroy)(ptr::addr_of_mut!(self.state)) };
    }
}
