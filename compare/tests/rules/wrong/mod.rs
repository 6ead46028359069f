//! Programs that are wrong in one way each, over the frames of `--kind rules`.

mod flaw;
mod record;

use oracle::Oracle;
use oracle::drive::differ::lines;
use oracle::frames::{self, Answer, Frame, PolyOpening, Ruled};
use oracle::generate::{Kind, Stream};
use oracle::refusal::Refusal;
use oracle::rules::{self, EARLIER, LATER};
use oracle::state::{By, Opened};
use oracle::stated::poly_a;

use flaw::{Flaw, all_flaws};
use record::{Kept, Wrong};

struct Program {
    flaw: Flaw,
    oracle: Oracle,
    first_rule: Option<u8>,
}

impl Program {
    fn of(flaw: Flaw) -> Self {
        Program {
            flaw,
            oracle: Oracle::new(),
            first_rule: None,
        }
    }

    fn answer(&mut self, line: &[u8]) -> Answer {
        let Some(frame) = self.decode(line) else {
            return Err(Refusal::Malformed);
        };
        match frame {
            Frame::OpenRuled(opening, byte) => self.open(&opening, byte),
            plain if self.flaw == Flaw::PlainIsLater && plain.is_opening() => {
                self.oracle.answer_frame(&plain.ruled(2))
            }
            other => self.oracle.answer_frame(&other),
        }
    }

    /// Flaws of the lengths: the line with a byte less or more is tried too.
    fn decode(&self, line: &[u8]) -> Option<Frame> {
        let ruled = matches!(line.get(..2), Some(b"21" | b"22" | b"23"));
        let plain = matches!(line.get(..2), Some(b"01" | b"02" | b"03"));
        let shorter = &line[..line.len().saturating_sub(2)];
        frames::decode(line).or_else(|| match self.flaw {
            Flaw::MayBeLeftOut if ruled => frames::decode(&[line, b"01"].concat()),
            Flaw::MayBeLonger if ruled => frames::decode(shorter),
            Flaw::PlainMayHaveOne if plain => frames::decode(shorter),
            _ => None,
        })
    }

    fn open(&mut self, opening: &Ruled, byte: u8) -> Answer {
        let opened = self.opened(opening, byte);
        let is_none = !rules::is_rule(byte.into());
        let closes = match self.flaw {
            Flaw::RefusedCloses => opened.is_err(),
            Flaw::NoneCloses => opened.is_err() && is_none,
            _ => false,
        };
        if closes {
            self.oracle = Oracle::new();
        }
        self.oracle.put(By::Nobody, opened)
    }

    fn opened(&mut self, opening: &Ruled, byte: u8) -> Opened {
        let byte = self.read_byte(byte);
        let refused = without_rule(opening);
        let rule = u64::from(byte);
        if !rules::is_rule(rule) {
            return Err(match (self.flaw, refused) {
                (Flaw::TwoAfterThree, Some(Refusal::Window)) => Refusal::Window,
                (Flaw::TwoLast, Some(refusal)) => refusal,
                (Flaw::NoneIsMalformed, _) => Refusal::Malformed,
                _ => Refusal::Bundle,
            });
        }
        if let Some(refusal) = self.refusal(opening, rule) {
            return Err(refusal);
        }
        let flaw = self.flaw;
        let kept = Kept::of(opening, rule);
        Ok(Box::new(Wrong { flaw, kept }))
    }

    fn read_byte(&mut self, byte: u8) -> u8 {
        match (self.flaw, byte) {
            (Flaw::ThirdOpens, 3) => 2,
            (Flaw::ZeroOpens, 0) => 1,
            (Flaw::LowBits, byte) => byte & 3,
            (Flaw::FirstRuleStays, 1 | 2) => *self.first_rule.get_or_insert(byte),
            (_, byte) => byte,
        }
    }

    /// Of an opening with a rule there is.
    fn refusal(&self, opening: &Ruled, rule: u64) -> Option<Refusal> {
        let right = with_rule(opening, rule);
        let loose = without_rule(opening);
        let Ruled::Poly(contact) = opening else {
            return right;
        };
        match self.flaw {
            Flaw::GapOpens => loose,
            Flaw::NoneOpens if contact.delays.is_empty() => loose,
            Flaw::GapAfterEleven if loose == Some(Refusal::Polynomial) => loose,
            Flaw::EarlierCovers => with_rule(opening, LATER),
            _ => right,
        }
    }
}

fn with_rule(opening: &Ruled, rule: u64) -> Option<Refusal> {
    let frame = Frame::OpenRuled(opening.clone(), rule as u8);
    Oracle::new().answer_frame(&frame).err()
}

fn without_rule(opening: &Ruled) -> Option<Refusal> {
    with_rule(opening, EARLIER)
}

// ---------------------------------------------------------------------------
// The comparison

const FRAMES: usize = 60_000;

/// How many answers of a run differ.
fn differences(flaw: Flaw, seed: u64) -> usize {
    let run = Stream::new(Kind::Rules, seed).run(FRAMES);
    let mut program = Program::of(flaw);
    let pairs = run.lines().zip(lines(&run.answers));
    let differs = |(line, expected): (&[u8], &[u8])| {
        let mut answer = Vec::new();
        frames::encode_answer(&program.answer(line), &mut answer);
        answer.push(b'\n');
        answer != expected
    };
    pairs.map(differs).filter(|differs| *differs).count()
}

#[test]
fn no_flaw_is_not_seen() {
    for seed in [1, 2, 3] {
        assert_eq!(differences(Flaw::None, seed), 0);
    }
}

#[test]
fn each_flaw_is_seen() {
    let mut unseen = Vec::new();
    for flaw in all_flaws() {
        for seed in [1, 2, 3] {
            let count = differences(flaw, seed);
            println!("{flaw:?}: {count} answers differ");
            if count == 0 {
                unseen.push((flaw, seed));
            }
        }
    }
    assert!(unseen.is_empty(), "{unseen:?}");
}

/// The polynomial's delays decide nothing else than 5: without the rule the same
/// contact opens.
#[test]
fn a_gap_alone_is_refused_under_rule_2_alone() {
    let gap = Ruled::Poly(PolyOpening {
        delays: Vec::new(),
        ..poly_a()
    });
    assert_eq!(without_rule(&gap), None);
    assert_eq!(with_rule(&gap, LATER), Some(Refusal::Delays));
}
