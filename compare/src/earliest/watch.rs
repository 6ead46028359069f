//! A conversation watched: which record is open, what it listed last, and
//! whether the next dry run is answered as claimed.

use super::claim::{Booked, Contact, Place};
use super::figures::{Figures, Passed};
use crate::drive::differ;
use crate::frames::{self, Dates, Frame, RatedOpening, Request, Ruled, Span, Window};
use crate::free::test_opening;
use crate::limits::{self, MAX_LISTED, MAX_PRIORITY};

/// The answers that are a number alone.
const DONE: &[u8] = b"00";
const NO_OFFER: &[u8] = b"07";

/// The listed value of what is not booked.
const NOT_BOOKED: i64 = -1;

/// An answer that is not as it must be.
#[derive(Clone, Debug, PartialEq, Eq)]
pub struct Difference {
    /// The frames since the last accepted opening, each with a line end. The
    /// last one is the one that was answered so.
    pub frames: Vec<u8>,
    pub answer: Vec<u8>,
    pub about: About,
}

#[derive(Clone, Debug, PartialEq, Eq)]
pub enum About {
    /// What is listed is no list of bookings over this window. There is no
    /// claim then, and a program must not get out of its check in that way.
    List(Window),
    DryRun {
        listed: Vec<Span>,
        request: Request,
        claim: Option<Place>,
    },
}

/// What is known of an open priority record.
struct Open {
    window: Window,
    /// `None` where the window is too long.
    contact: Option<Contact>,
}

impl Open {
    /// `None` where a program has accepted what document 01 refuses.
    fn of(opening: &RatedOpening) -> Option<Self> {
        test_opening(opening).ok()?;
        Some(Open {
            window: opening.window,
            contact: Contact::of(opening),
        })
    }
}

#[derive(Default)]
pub struct Watch {
    open: Option<Open>,
    /// What is listed, if frame 12 was the last frame.
    listed: Option<Vec<Span>>,
    /// As in a [`Difference`].
    frames: Vec<u8>,
    pub figures: Figures,
}

impl Watch {
    pub fn new() -> Self {
        Self::default()
    }

    /// A run of the program, which begins with nothing open, up to the first
    /// difference. The lines have their line ends.
    pub fn see_run(&mut self, frames: &[u8], answers: &[u8]) -> Option<Difference> {
        *self = Watch {
            figures: std::mem::take(&mut self.figures),
            ..Self::default()
        };
        let mut pairs = differ::lines(frames).zip(differ::lines(answers));
        pairs.find_map(|(line, answer)| self.see(differ::bare(line), differ::bare(answer)))
    }

    /// A frame and its answer, both without their line ends.
    pub fn see(&mut self, line: &[u8], answer: &[u8]) -> Option<Difference> {
        let listed = self.listed.take();
        let frame = frames::decode(line);
        if answer == DONE {
            self.open(frame.as_ref());
        }
        self.frames.extend_from_slice(line);
        self.frames.push(b'\n');
        let about = match frame? {
            Frame::List => self.list(answer)?,
            Frame::DryRun(request) => self.dry_run(request, listed, answer)?,
            _ => return None,
        };
        self.figures.differences += 1;
        Some(Difference {
            frames: self.frames.clone(),
            answer: answer.to_vec(),
            about,
        })
    }

    /// A frame that is done: an opening begins anew. The claim does not go by the
    /// delay rule.
    fn open(&mut self, frame: Option<&Frame>) {
        self.open = match frame {
            Some(Frame::OpenPriority(opening) | Frame::OpenRuled(Ruled::Priority(opening), _)) => {
                Open::of(opening)
            }
            Some(frame) if frame.is_opening() => None,
            _ => return,
        };
        self.frames.clear();
    }

    fn list(&mut self, answer: &[u8]) -> Option<About> {
        let window = self.open.as_ref()?.window;
        self.listed = frames::decode_list(answer).filter(|listed| is_list_over(window, listed));
        match self.listed {
            Some(_) => None,
            None => Some(About::List(window)),
        }
    }

    fn dry_run(
        &mut self,
        request: Request,
        listed: Option<Vec<Span>>,
        answer: &[u8],
    ) -> Option<About> {
        let (contact, listed) = match known(self.open.as_ref(), request, listed) {
            Ok(known) => known,
            Err(reason) => {
                self.figures.count_passed(reason);
                return None;
            }
        };
        let claim = Booked::on(contact, &listed).least(request);
        let agrees = said(answer) == Some(claim);
        if listed.iter().any(|span| span.start == span.end) {
            self.figures.count_passed(Passed::EmptySegment);
            self.figures.contradictions += usize::from(!agrees);
            return None;
        }
        self.figures.count_checked(listed.len());
        if agrees {
            count_claim(&mut self.figures, contact, request, claim);
            return None;
        }
        Some(About::DryRun {
            listed,
            request,
            claim,
        })
    }
}

fn count_claim(figures: &mut Figures, contact: &Contact, request: Request, claim: Option<Place>) {
    match claim {
        Some(place) => figures.count_offer(place, contact.starts(request.time).start),
        None => figures.count_none(contact.has_room(request)),
    }
}

/// What the claim goes by, or why it says nothing.
fn known(
    open: Option<&Open>,
    request: Request,
    listed: Option<Vec<Span>>,
) -> Result<(&Contact, Vec<Span>), Passed> {
    let open = open.ok_or(Passed::NoRecord)?;
    limits::test_request(request).map_err(|_| Passed::BadBundle)?;
    let contact = open.contact.as_ref().ok_or(Passed::LongWindow)?;
    Ok((contact, listed.ok_or(Passed::NotListed)?))
}

/// What an answer to a dry run says of the send: that there is none, or when.
/// `None` for any other line. The receive dates are no part of the claim.
fn said(answer: &[u8]) -> Option<Option<Place>> {
    if answer == NO_OFFER {
        return Some(None);
    }
    let Dates([start, end, ..]) = frames::decode_offer(answer)?;
    Some(Some(Place { start, end }))
}

/// Document 01's rule for the bookings of a record.
fn is_list_over(window: Window, listed: &[Span]) -> bool {
    let mut reached = window.start;
    for span in listed {
        if span.start != reached || span.end < span.start {
            return false;
        }
        reached = span.end;
    }
    let values = NOT_BOOKED..=i64::from(MAX_PRIORITY);
    reached == window.end
        && (1..=MAX_LISTED).contains(&listed.len())
        && listed.iter().all(|span| values.contains(&span.value))
}
