//! The proved reader of frames beside one written by hand, over 100,000 frames in memory. `bench/codec` builds and runs it.

use std::hint::black_box;
use std::time::Instant;

#[link(name = "bench_codec", kind = "static")]
unsafe extern "C" {
    fn read_with_fields(bytes: *const u8, len: usize) -> u64;
    fn read_frames(bytes: *const u8, len: usize) -> u64;
}

/// A reader of the same grammar, as one writes it in Rust.
mod by_hand {
    pub enum Frame<'a> {
        Whole { fields: Fields<'a>, len: usize },
        Garbled { len: usize },
        Partial,
        Broken { at: usize },
    }

    #[derive(Clone, Copy)]
    pub struct Fields<'a>(&'a [u8]);

    impl<'a> Iterator for Fields<'a> {
        type Item = (u32, &'a [u8]);

        #[inline]
        fn next(&mut self) -> Option<(u32, &'a [u8])> {
            let (field, rest) = field(self.0)?;
            self.0 = rest;
            Some(field)
        }
    }

    /// The field at the front, and the bytes after it.
    #[inline]
    fn field(bytes: &[u8]) -> Option<((u32, &[u8]), &[u8])> {
        let mut tag = 0u32;
        let mut digits = 0;
        loop {
            let byte = *bytes.get(digits)?;
            if byte.is_ascii_digit() && digits < 9 && !(digits == 0 && byte == b'0') {
                tag = tag * 10 + u32::from(byte - b'0');
                digits += 1;
            } else if byte == b'=' && digits > 0 {
                break;
            } else {
                return None;
            }
        }
        let rest = &bytes[digits + 1..];
        let end = rest.iter().position(|byte| *byte == 1)?;
        if end == 0 {
            return None;
        }
        Some(((tag, &rest[..end]), &rest[end + 1..]))
    }

    const OPENING: &[u8; 13] = b"8=FIXT.1.1\x019=";

    pub fn read_frame(bytes: &[u8]) -> Frame<'_> {
        let front = bytes.len().min(13);
        if bytes[..front] != OPENING[..front] {
            let at = (0..front).find(|&i| bytes[i] != OPENING[i]).unwrap_or(front);
            return Frame::Broken { at };
        }
        if front < 13 {
            return Frame::Partial;
        }
        let mut digits = 0;
        let mut count = 0usize;
        while digits < 6 && 13 + digits < bytes.len() && bytes[13 + digits].is_ascii_digit() {
            count = count * 10 + usize::from(bytes[13 + digits] - b'0');
            digits += 1;
        }
        if 13 + digits == bytes.len() {
            return Frame::Partial;
        }
        if bytes[13 + digits] != 1 || count < 5 || count + digits > 65_515 {
            return Frame::Broken { at: 13 + digits };
        }
        let start = 14 + digits;
        let end = start + count;
        if bytes.len() < end {
            return Frame::Partial;
        }
        let trailer = &bytes[end - 1..];
        for (i, byte) in trailer.iter().take(8).enumerate() {
            let fits = match i {
                0 | 7 => *byte == 1,
                1 => *byte == b'1',
                2 => *byte == b'0',
                3 => *byte == b'=',
                _ => byte.is_ascii_digit(),
            };
            if !fits {
                return Frame::Broken { at: end - 1 + i };
            }
        }
        if trailer.len() < 8 {
            return Frame::Partial;
        }
        let wanted = trailer[4..7].iter().fold(0u32, |n, byte| n * 10 + u32::from(byte - b'0'));
        let sum = bytes[..end].iter().fold(0u8, |sum, byte| sum.wrapping_add(*byte));
        let body = &bytes[start..end];
        if u32::from(sum) == wanted && is_body(body) {
            Frame::Whole { fields: Fields(body), len: end + 7 }
        } else {
            Frame::Garbled { len: end + 7 }
        }
    }

    fn is_body(bytes: &[u8]) -> bool {
        let Some(((35, _), mut rest)) = field(bytes) else {
            return false;
        };
        while !rest.is_empty() {
            let Some((_, after)) = field(rest) else {
                return false;
            };
            rest = after;
        }
        true
    }
}

use by_hand::Frame;

fn mixed(mix: u64, number: u64) -> u64 {
    mix.wrapping_mul(31).wrapping_add(number)
}

#[inline(never)]
fn with_fields_by_hand(bytes: &[u8]) -> u64 {
    let mut rest = bytes;
    let mut mix = 0;
    loop {
        match by_hand::read_frame(rest) {
            Frame::Whole { fields, len } => {
                for (tag, value) in fields {
                    mix = mixed(mixed(mix, u64::from(tag)), value.len() as u64);
                }
                rest = &rest[len..];
            }
            Frame::Garbled { len } => return len as u64,
            Frame::Broken { at } => return at as u64,
            Frame::Partial => return mixed(mix, rest.len() as u64),
        }
    }
}

#[inline(never)]
fn frames_by_hand(bytes: &[u8]) -> u64 {
    let mut rest = bytes;
    let mut mix = 0;
    loop {
        match by_hand::read_frame(rest) {
            Frame::Whole { len, .. } => {
                mix = mixed(mix, len as u64);
                rest = &rest[len..];
            }
            Frame::Garbled { len } => return len as u64,
            Frame::Broken { at } => return at as u64,
            Frame::Partial => return mixed(mix, rest.len() as u64),
        }
    }
}

/// A trade and its split, as they come in.
const TRADE: &str = "8=FIXT.1.1|9=110|35=AE|49=HSE|56=HSE|34=1|52=20260302-09:00:00|571=T1|55=ESZ6|32=100|552=1|54=1|453=1|448=AAA|447=D|452=4|1=A1|10=142|";
const SPLIT: &str = "8=FIXT.1.1|9=99|35=J|49=AAA|56=HSE|34=1|52=20260302-09:00:01|70=S1|71=0|626=23|72=1.0|78=2|79=A1|80=60|79=A2|80=40|10=192|";
const FRAMES: usize = 100_000;
const ROUNDS: usize = 60;

/// The least time of one run, in seconds, of two readers that take turns.
fn least(bytes: &[u8], proved: impl Fn(&[u8]) -> u64, hand: impl Fn(&[u8]) -> u64) -> (f64, f64) {
    let (mut of_proved, mut of_hand) = (f64::MAX, f64::MAX);
    for _ in 0..ROUNDS {
        let start = Instant::now();
        let one = black_box(proved(black_box(bytes)));
        of_proved = of_proved.min(start.elapsed().as_secs_f64());
        let start = Instant::now();
        let two = black_box(hand(black_box(bytes)));
        of_hand = of_hand.min(start.elapsed().as_secs_f64());
        assert_eq!(one, two, "the two readers differ");
    }
    (of_proved, of_hand)
}

fn show(what: &str, seconds: f64, bytes: usize) {
    println!(
        "{what:32} {:7.1} ns a frame {:6.2} million frames/s {:8.1} MB/s",
        seconds * 1e9 / FRAMES as f64,
        FRAMES as f64 / seconds / 1e6,
        bytes as f64 / seconds / 1e6,
    );
}

fn main() {
    let frames = [TRADE.replace('|', "\x01"), SPLIT.replace('|', "\x01")];
    let mut text = Vec::new();
    for i in 0..FRAMES {
        text.extend_from_slice(frames[i % 2].as_bytes());
    }
    let (proved, hand) = least(
        &text,
        |bytes| unsafe { read_frames(bytes.as_ptr(), bytes.len()) },
        frames_by_hand,
    );
    show("proved, frames alone", proved, text.len());
    show("by hand, frames alone", hand, text.len());
    let (proved, hand) = least(
        &text,
        |bytes| unsafe { read_with_fields(bytes.as_ptr(), bytes.len()) },
        with_fields_by_hand,
    );
    show("proved, frames and all fields", proved, text.len());
    show("by hand, frames and all fields", hand, text.len());
    println!("speed of the proved reader over that by hand, with all fields: {:.2}", hand / proved);
}
