//! The numbers of the refusals, as document 01 lists them.

pub const CHANNELS: u8 = 1;
pub const SAMPLES: u8 = 2;
pub const MAP: u8 = 3;
pub const DEST: u8 = 4;
pub const STORE: u8 = 5;
pub const FULL: u8 = 6;
pub const SET: u8 = 7;
pub const MODE: u8 = 8;
pub const NONE: u8 = 9;
pub const NAN: u8 = 10;
pub const SCALE: u8 = 11;
pub const LENGTH: u8 = 12;
pub const KIND: u8 = 13;
pub const CONTENT: u8 = 14;
pub const ROOM: u8 = 15;

/// One of the checks of a refusal's number: document 01 gives most numbers for more than one reason.
#[derive(Clone, Copy, Debug, PartialEq, Eq, PartialOrd, Ord)]
pub struct Check {
    pub number: u8,
    pub why: &'static str,
}

impl Check {
    pub const fn new(number: u8, why: &'static str) -> Self {
        Check { number, why }
    }
}

/// The number of the check that refuses, or 0.
pub fn number(check: Option<Check>) -> u8 {
    check.map_or(0, |check| check.number)
}

/// The name of a refusal.
pub fn name(number: u8) -> &'static str {
    match number {
        CHANNELS => "CHANNELS",
        SAMPLES => "SAMPLES",
        MAP => "MAP",
        DEST => "DEST",
        STORE => "STORE",
        FULL => "FULL",
        SET => "SET",
        MODE => "MODE",
        NONE => "NONE",
        NAN => "NAN",
        SCALE => "SCALE",
        LENGTH => "LENGTH",
        KIND => "KIND",
        CONTENT => "CONTENT",
        ROOM => "ROOM",
        _ => "unknown",
    }
}
