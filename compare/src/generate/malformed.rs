//! Lines that are damaged copies of frames, or never were one. What is still a
//! frame after the damage is compared all the same.

use super::rng::Rng;
use super::{openings, ruled};
use crate::frames::{Dates, Frame, Load, MAX_DIGITS, Request};

/// Bytes that are no lower-case digits, line ends left out.
const OTHER_BYTES: &[u8] = b"gGAFBCDEzZ \t\r\0x-+./:@`{_\x7f\x80\xff";

/// Of document 01's frames and frame 15, as in the stored list.
pub fn line(rng: &mut Rng) -> Vec<u8> {
    let frame = any_frame(rng).encode();
    damaged(rng, frame)
}

/// Of frames 21 to 23 (document 02, R-4).
pub fn ruled_line(rng: &mut Rng) -> Vec<u8> {
    let frame = ruled::any(rng).encode();
    damaged(rng, frame)
}

fn damaged(rng: &mut Rng, frame: Vec<u8>) -> Vec<u8> {
    match rng.below(14) {
        0 => Vec::new(),
        1 => frame[..rng.below(frame.len())].to_vec(),
        2 => without(frame, rng, 1),
        3 => without(frame, rng, 2),
        4 => with_more(frame, rng),
        5 => with_byte(frame, rng),
        6 => with_byte_between(frame, rng),
        7 => in_upper_case(frame),
        8 => with_pair(frame, 0, rng),
        9 => with_count(frame, rng),
        10 => digits(rng, MAX_DIGITS + 80),
        11 => digits(rng, 120),
        12 => around_longest(frame, rng),
        _ => bytes(rng),
    }
}

fn any_frame(rng: &mut Rng) -> Frame {
    let load = Load {
        size: rng.between(1, 100),
        priority: rng.below(4) as u8,
    };
    let request = Request {
        time: rng.between(0, 100),
        load,
    };
    let scale = openings::scale(rng);
    match rng.below(10) {
        0 => Frame::OpenFree(openings::rated(rng, scale)),
        1 => Frame::OpenPriority(openings::rated(rng, scale)),
        2 => Frame::OpenPoly(openings::poly(rng, scale)),
        3 => Frame::OpenQueue(openings::queue(rng, scale)),
        4 => Frame::DryRun(request),
        5 => Frame::Book(request, Dates([rng.between(0, 100); 4])),
        6 => Frame::List,
        7 => Frame::Enqueue(load),
        8 => Frame::Dequeue(load),
        _ => Frame::Room,
    }
}

fn without(mut line: Vec<u8>, rng: &mut Rng, count: usize) -> Vec<u8> {
    let place = rng.below(line.len() + 1 - count);
    line.drain(place..place + count);
    line
}

fn with_more(mut line: Vec<u8>, rng: &mut Rng) -> Vec<u8> {
    let more = rng.pick(&[1, 2, 3, 4, 16, 48]);
    line.extend(digits_of(rng, more));
    line
}

fn with_byte(mut line: Vec<u8>, rng: &mut Rng) -> Vec<u8> {
    let place = rng.below(line.len());
    line[place] = rng.pick(OTHER_BYTES);
    line
}

fn with_byte_between(mut line: Vec<u8>, rng: &mut Rng) -> Vec<u8> {
    let place = rng.pick(&[0, line.len() / 2, line.len()]);
    line.insert(place, rng.pick(OTHER_BYTES));
    line
}

fn in_upper_case(line: Vec<u8>) -> Vec<u8> {
    line.to_ascii_uppercase()
}

/// Any byte in the place of one byte.
fn with_pair(mut line: Vec<u8>, byte: usize, rng: &mut Rng) -> Vec<u8> {
    let pair = format!("{:02x}", rng.below(256));
    line[2 * byte..2 * byte + 2].copy_from_slice(pair.as_bytes());
    line
}

/// Another count, flags or class byte, where the frame has one.
fn with_count(line: Vec<u8>, rng: &mut Rng) -> Vec<u8> {
    let byte = rng.pick(&[1, 2, 17, 18, 57]);
    match 2 * byte + 2 <= line.len() {
        true => with_pair(line, byte, rng),
        false => line,
    }
}

/// A line filled up to about the longest length that is read.
fn around_longest(mut line: Vec<u8>, rng: &mut Rng) -> Vec<u8> {
    let length = MAX_DIGITS as i64 + rng.between(-3, 3);
    line.resize(length as usize, b'0');
    line
}

fn digits(rng: &mut Rng, most: usize) -> Vec<u8> {
    let length = rng.below(most);
    digits_of(rng, length)
}

fn digits_of(rng: &mut Rng, length: usize) -> Vec<u8> {
    (0..length).map(|_| rng.pick(b"0123456789abcdef")).collect()
}

fn bytes(rng: &mut Rng) -> Vec<u8> {
    let length = rng.below(60);
    (0..length)
        .map(|_| rng.word() as u8)
        .filter(|byte| *byte != b'\n')
        .collect()
}
