//! The stored list: what document 01 states, and a sample of the rest.

use std::path::Path;
use std::{fs, io};

use super::dialogues::{self, Manager};
use super::rng::Rng;
use super::sink::{Run, Sink};
use super::{exhaustive, malformed};
use crate::frames::Frame;
use crate::stated::{self, contact_a};

const SEED: u64 = 1;
const MANAGERS: [Manager; 4] = [
    Manager::Free,
    Manager::Priority,
    Manager::Poly,
    Manager::Queue,
];
/// Tiny contacts of each manager, evenly spread.
const TINY: usize = 3;
/// Frames of random dialogues of each manager, about.
const RANDOM: usize = 600;
const MALFORMED: usize = 300;

/// Writes DIR/stdin and DIR/stdout. The last frame has no line end.
pub fn write(folder: &Path) -> io::Result<usize> {
    let list = make();
    let frames = list.frames.strip_suffix(b"\n").expect("never empty");
    fs::create_dir_all(folder)?;
    fs::write(folder.join("stdin"), frames)?;
    fs::write(folder.join("stdout"), &list.answers)?;
    Ok(list.count)
}

pub fn make() -> Run {
    let mut sink = Sink::new();
    let mut rng = Rng::new(SEED);
    for step in stated::talks().iter().flat_map(|talk| &talk.steps) {
        let _ = sink.line(&step.line);
    }
    for manager in MANAGERS {
        add_tiny(manager, &mut sink);
        add_random(&mut rng, manager, &mut sink);
    }
    add_malformed(&mut rng, &mut sink);
    let _ = sink.ask(&Frame::OpenFree(contact_a()));
    let _ = sink.ask(&Frame::List);
    sink.finish()
}

/// From each part of the tiny contacts the first with few frames: the deep
/// ones would fill the list.
fn add_tiny(manager: Manager, sink: &mut Sink) {
    let contacts = exhaustive::contacts(manager);
    for part in contacts.chunks(contacts.len().div_ceil(TINY)) {
        let asked = part.iter().map(|contact| {
            let mut alone = Sink::new();
            contact.ask_all(&mut alone);
            alone.finish()
        });
        let few = |run: &Run| (20..RANDOM).contains(&run.count);
        for line in asked.into_iter().find(few).iter().flat_map(Run::lines) {
            let _ = sink.line(line);
        }
    }
}

fn add_random(rng: &mut Rng, manager: Manager, sink: &mut Sink) {
    let end = sink.count() + RANDOM;
    while sink.count() < end {
        dialogues::dialogue(rng, manager, sink);
    }
}

/// The list stays a text file: other bytes than ASCII's printed ones, the tab
/// and the carriage return are left to the random runs.
fn add_malformed(rng: &mut Rng, sink: &mut Sink) {
    let end = sink.count() + MALFORMED;
    while sink.count() < end {
        let line = malformed::line(rng);
        if line.iter().all(is_text) {
            let _ = sink.line(&line);
        }
    }
}

fn is_text(byte: &u8) -> bool {
    matches!(byte, b' '..=b'~' | b'\t' | b'\r')
}
