//! The readings of the four managers, each with the flag in its record.

use super::calls::OneOf;
use super::queues;
use super::terms::Manager;
use crate::editions::reading as rated;
use crate::frames::{Dates, Request};
use crate::modes::reading as poly;
use crate::trial::choices::Chosen;

pub type Reading = OneOf<rated::Reading, poly::Reading, queues::Reading>;

impl Reading {
    /// With nothing open.
    pub fn of(manager: Manager) -> Self {
        match manager.rated() {
            Some(which) => OneOf::Rated(rated::Reading::of(which)),
            None if manager == Manager::Poly => OneOf::Poly(poly::Reading::default()),
            None => OneOf::Queue(queues::Reading::default()),
        }
    }

    /// What the record that is open names. A queue record names its flag alone.
    pub fn chosen(&self) -> Chosen {
        let named = match self {
            OneOf::Rated(it) => it.record.as_ref().map(|record| record.chosen()),
            OneOf::Poly(it) => it.record.as_ref().map(|record| record.opening.chosen()),
            OneOf::Queue(it) => it.record.as_ref().map(|record| Chosen {
                strict: record.opening.strict,
                ..Chosen::NOTHING
            }),
        };
        named.unwrap_or(Chosen::NOTHING)
    }

    /// What a dry run shows; nothing where nothing is open.
    pub fn offer(&self, request: Request) -> Option<Dates> {
        let shown = match self {
            OneOf::Rated(it) => it.record.as_ref()?.dry_run(request),
            OneOf::Poly(it) => it.record.as_ref()?.dry_run(request),
            OneOf::Queue(it) => it.record.as_ref()?.dry_run(request),
        };
        shown.ok()
    }

    /// Whether what is open keeps its rules.
    pub fn is_whole(&self) -> bool {
        match self {
            OneOf::Rated(it) => it
                .record
                .as_ref()
                .is_some_and(|it| it.test_choices().is_ok()),
            OneOf::Poly(it) => it.record.as_ref().is_some_and(|it| it.test().is_ok()),
            OneOf::Queue(it) => it.record.as_ref().is_some_and(|it| it.test().is_ok()),
        }
    }

    /// How many segments are listed; a queue record has none.
    pub fn listed(&self) -> usize {
        match self {
            OneOf::Rated(it) => it.record.as_ref().map_or(0, |it| it.list.len()),
            OneOf::Poly(it) => it.record.as_ref().map_or(0, |it| it.list.len()),
            OneOf::Queue(_) => 0,
        }
    }
}
