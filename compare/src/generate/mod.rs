//! The frames that are compared: seeded, in dialogues that begin with an
//! opening, each frame with the oracle's answer.

pub mod dialogues;
pub mod exhaustive;
pub mod filled;
pub mod list;
pub mod malformed;
pub mod openings;
pub mod rng;
pub mod ruled;
pub mod sink;

use dialogues::Manager;
use exhaustive::Tiny;
use rng::Rng;
use sink::{Run, Sink};

use crate::stated::refusals;

#[derive(Clone, Copy, Debug, PartialEq, Eq)]
pub enum Kind {
    Free,
    Priority,
    Poly,
    Queue,
    Malformed,
    /// The dialogues of `Free`, with frame 15 after every other frame.
    Room,
    /// A priority record on which no send of zero length is booked.
    Filled,
    /// The managers that look up delays, with frames 21 to 23 under both rules.
    Rules,
    /// Everything but `Room` and `Filled`: the others ask frame 15 now and
    /// then, and book sends of any length.
    All,
}

impl Kind {
    pub const NAMES: [(&str, Kind); 9] = [
        ("free", Kind::Free),
        ("priority", Kind::Priority),
        ("poly", Kind::Poly),
        ("queue", Kind::Queue),
        ("malformed", Kind::Malformed),
        ("room", Kind::Room),
        ("filled", Kind::Filled),
        ("rules", Kind::Rules),
        ("all", Kind::All),
    ];

    pub fn named(name: &str) -> Option<Kind> {
        let found = Self::NAMES.iter().find(|(known, _)| *known == name);
        found.map(|(_, kind)| *kind)
    }
}

/// What a source's dialogues are about.
#[derive(Clone, Copy)]
enum Theme {
    Manager(Manager),
    Filled,
    Ruled(Manager),
}

/// A source of dialogues of one theme. Tiny contacts take every second turn
/// until all have been asked.
struct Source {
    theme: Theme,
    tiny: std::vec::IntoIter<Tiny>,
    in_tiny: usize,
    in_random: usize,
}

impl Source {
    fn new(theme: Theme) -> Self {
        let tiny = match theme {
            Theme::Manager(manager) => exhaustive::contacts(manager),
            Theme::Filled => exhaustive::filled(),
            Theme::Ruled(manager) => exhaustive::ruled(manager),
        };
        Source {
            theme,
            tiny: tiny.into_iter(),
            in_tiny: 0,
            in_random: 0,
        }
    }

    fn frames(&self) -> usize {
        self.in_tiny + self.in_random
    }

    fn dialogue(&mut self, rng: &mut Rng, sink: &mut Sink) {
        let before = sink.count();
        if self.in_tiny <= self.in_random
            && let Some(contact) = self.tiny.next()
        {
            contact.ask_all(sink);
            self.in_tiny += sink.count() - before;
        } else {
            match self.theme {
                Theme::Manager(manager) => dialogues::dialogue(rng, manager, sink),
                Theme::Filled => filled::dialogue(rng, sink),
                Theme::Ruled(manager) => ruled::dialogue(rng, manager, sink),
            }
            self.in_random += sink.count() - before;
        }
    }
}

/// All frames of one seed and kind, in runs.
pub struct Stream {
    rng: Rng,
    sources: Vec<Source>,
    /// The share of malformed dialogues: all, one in a few, or none.
    malformed_every: Option<usize>,
    /// Whether frame 15 is asked after every other frame.
    asks_room: bool,
}

/// Among all kinds, one dialogue in so many is malformed.
const MALFORMED_SHARE: usize = 6;

impl Stream {
    pub fn new(kind: Kind, seed: u64) -> Self {
        let managers = [
            Manager::Free,
            Manager::Priority,
            Manager::Poly,
            Manager::Queue,
        ];
        let ruled = ruled::MANAGERS.map(Theme::Ruled);
        let themes = match kind {
            Kind::Free | Kind::Room => vec![Theme::Manager(Manager::Free)],
            Kind::Priority => vec![Theme::Manager(Manager::Priority)],
            Kind::Poly => vec![Theme::Manager(Manager::Poly)],
            Kind::Queue => vec![Theme::Manager(Manager::Queue)],
            Kind::Filled => vec![Theme::Filled],
            Kind::Malformed => vec![],
            Kind::Rules => ruled.to_vec(),
            Kind::All => [&managers.map(Theme::Manager)[..], &ruled].concat(),
        };
        Stream {
            rng: Rng::new(seed),
            sources: themes.into_iter().map(Source::new).collect(),
            malformed_every: match kind {
                Kind::Malformed => Some(1),
                Kind::All => Some(MALFORMED_SHARE),
                _ => None,
            },
            asks_room: kind == Kind::Room,
        }
    }

    /// A run of at least so many frames: the last dialogue is finished.
    pub fn run(&mut self, frames: usize) -> Run {
        let mut sink = match self.asks_room {
            true => Sink::asking_room(),
            false => Sink::new(),
        };
        self.ask_nothing_open(&mut sink);
        while sink.count() < frames {
            self.dialogue(&mut sink);
        }
        sink.finish()
    }

    /// Each run begins with nothing open, and asks so.
    fn ask_nothing_open(&mut self, sink: &mut Sink) {
        for step in refusals::nothing_open().iter().flat_map(|talk| &talk.steps) {
            let _ = sink.line(&step.line);
        }
        let _ = sink.line(&malformed::line(&mut self.rng));
    }

    fn dialogue(&mut self, sink: &mut Sink) {
        if let Some(every) = self.malformed_every
            && self.rng.once_in(every)
        {
            return dialogues::malformed_dialogue(&mut self.rng, sink);
        }
        let behind = self
            .sources
            .iter_mut()
            .min_by_key(|source| source.frames())
            .expect("a kind without themes is malformed only");
        behind.dialogue(&mut self.rng, sink);
    }
}
