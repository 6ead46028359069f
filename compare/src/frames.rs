//! Lines and what they say: the layouts of document 01's trace program, of frame
//! 15 (document 02, R-1) and of frames 21 to 23, and nothing about what a
//! frame means.

use crate::refusal::{DONE, Refusal};

/// A longer line is malformed whatever it holds.
pub const MAX_DIGITS: usize = 2048;
/// The longest answer: a list of as many segments as its count can say.
const MAX_ANSWER_BYTES: usize = 2 + u8::MAX as usize * 3 * 8;

pub const BUDGETS: usize = 8;
pub const COEFFICIENTS: usize = 4;

/// The kind bytes.
pub mod kind {
    pub const OPEN_FREE: u8 = 0x01;
    pub const OPEN_PRIORITY: u8 = 0x02;
    pub const OPEN_POLY: u8 = 0x03;
    pub const OPEN_QUEUE: u8 = 0x04;
    pub const DRY_RUN: u8 = 0x10;
    pub const BOOK: u8 = 0x11;
    pub const LIST: u8 = 0x12;
    pub const ENQUEUE: u8 = 0x13;
    pub const DEQUEUE: u8 = 0x14;
    pub const ROOM: u8 = 0x15;
    pub const RULED_FREE: u8 = 0x21;
    pub const RULED_PRIORITY: u8 = 0x22;
    pub const RULED_POLY: u8 = 0x23;
}

/// The bits of a queue opening's flags.
pub mod flag {
    pub const ADDED_DELAY: u8 = 1;
    pub const SELF_UPDATE: u8 = 2;
    pub const BUDGETED: u8 = 4;
    pub const ALL: u8 = ADDED_DELAY | SELF_UPDATE | BUDGETED;
}

#[derive(Clone, Copy, Debug, PartialEq, Eq)]
pub struct Window {
    pub start: i64,
    pub end: i64,
}

/// A rate, delay or listed segment with its rate, delay or value.
#[derive(Clone, Copy, Debug, PartialEq, Eq)]
pub struct Span {
    pub start: i64,
    pub end: i64,
    pub value: i64,
}

#[derive(Clone, Debug, PartialEq, Eq)]
pub struct RatedOpening {
    pub window: Window,
    pub rates: Vec<Span>,
    pub delays: Vec<Span>,
}

#[derive(Clone, Debug, PartialEq, Eq)]
pub struct PolyOpening {
    pub window: Window,
    pub offset: i64,
    pub coefficients: [i64; COEFFICIENTS],
    pub delays: Vec<Span>,
}

#[derive(Clone, Debug, PartialEq, Eq)]
pub struct QueueOpening {
    pub flags: u8,
    pub classes: u8,
    pub window: Window,
    pub rate: i64,
    pub delay: i64,
    pub budgets: [i64; BUDGETS],
}

/// An opening of a manager that looks up delays: frames 21 to 23 have a rule byte
/// beside it.
#[derive(Clone, Debug, PartialEq, Eq)]
pub enum Ruled {
    Free(RatedOpening),
    Priority(RatedOpening),
    Poly(PolyOpening),
}

/// What is carried: a size and a priority, as stated.
#[derive(Clone, Copy, Debug, PartialEq, Eq)]
pub struct Load {
    pub size: i64,
    pub priority: u8,
}

/// An asked time and what is to be carried then.
#[derive(Clone, Copy, Debug, PartialEq, Eq)]
pub struct Request {
    pub time: i64,
    pub load: Load,
}

/// Send start, send end, receive start, receive end.
#[derive(Clone, Copy, Debug, PartialEq, Eq)]
pub struct Dates(pub [i64; 4]);

#[derive(Clone, Debug, PartialEq, Eq)]
pub enum Frame {
    OpenFree(RatedOpening),
    OpenPriority(RatedOpening),
    OpenPoly(PolyOpening),
    OpenQueue(QueueOpening),
    /// With the rule byte as stated, any of its 256 values.
    OpenRuled(Ruled, u8),
    DryRun(Request),
    Book(Request, Dates),
    List,
    Enqueue(Load),
    Dequeue(Load),
    Room,
}

/// What follows an answer's zero.
#[derive(Clone, Debug, PartialEq, Eq)]
pub enum Content {
    Nothing,
    Offer(Dates),
    Segments(Vec<Span>),
    Queues(Vec<i64>),
    /// The sum of the listed free volumes.
    Room(i64),
}

pub type Answer = Result<Content, Refusal>;

// ---------------------------------------------------------------------------
// Reading

const NO_DIGIT: u8 = 0xff;

/// The value of each byte as a lower-case digit.
const DIGIT_VALUES: [u8; 256] = {
    let mut values = [NO_DIGIT; 256];
    let mut value = 0;
    while value < 16 {
        values[b"0123456789abcdef"[value as usize] as usize] = value;
        value += 1;
    }
    values
};

/// Reads one line without its line end. `None` is document 01's ff.
pub fn decode(line: &[u8]) -> Option<Frame> {
    let mut place = [0; MAX_DIGITS / 2];
    let mut reader = Reader {
        rest: digits_to_bytes(line, &mut place)?,
    };
    let frame = read_frame(&mut reader)?;
    reader.rest.is_empty().then_some(frame)
}

fn digits_to_bytes<'a>(line: &[u8], place: &'a mut [u8]) -> Option<&'a [u8]> {
    if line.len() > 2 * place.len() || !line.len().is_multiple_of(2) {
        return None;
    }
    let mut seen = 0;
    for (byte, pair) in place.iter_mut().zip(line.chunks_exact(2)) {
        let high = DIGIT_VALUES[pair[0] as usize];
        let low = DIGIT_VALUES[pair[1] as usize];
        seen |= high | low;
        *byte = (high << 4) | (low & 0xf);
    }
    (seen <= 0xf).then_some(&place[..line.len() / 2])
}

struct Reader<'a> {
    rest: &'a [u8],
}

impl Reader<'_> {
    fn byte(&mut self) -> Option<u8> {
        let (first, rest) = self.rest.split_first()?;
        self.rest = rest;
        Some(*first)
    }

    fn number(&mut self) -> Option<i64> {
        let (first, rest) = self.rest.split_first_chunk()?;
        self.rest = rest;
        Some(i64::from_be_bytes(*first))
    }

    fn numbers<const N: usize>(&mut self) -> Option<[i64; N]> {
        let mut numbers = [0; N];
        for number in &mut numbers {
            *number = self.number()?;
        }
        Some(numbers)
    }

    fn window(&mut self) -> Option<Window> {
        let [start, end] = self.numbers()?;
        Some(Window { start, end })
    }

    fn spans(&mut self, count: u8) -> Option<Vec<Span>> {
        (0..count)
            .map(|_| {
                let [start, end, value] = self.numbers()?;
                Some(Span { start, end, value })
            })
            .collect()
    }

    fn load(&mut self) -> Option<Load> {
        Some(Load {
            size: self.number()?,
            priority: self.byte()?,
        })
    }

    fn request(&mut self) -> Option<Request> {
        Some(Request {
            time: self.number()?,
            load: self.load()?,
        })
    }
}

fn read_frame(reader: &mut Reader) -> Option<Frame> {
    match reader.byte()? {
        kind::OPEN_FREE => Some(Frame::OpenFree(read_rated(reader)?)),
        kind::OPEN_PRIORITY => Some(Frame::OpenPriority(read_rated(reader)?)),
        kind::OPEN_POLY => Some(Frame::OpenPoly(read_poly(reader)?)),
        kind::OPEN_QUEUE => Some(Frame::OpenQueue(read_queue(reader)?)),
        kind::DRY_RUN => Some(Frame::DryRun(reader.request()?)),
        kind::BOOK => Some(Frame::Book(reader.request()?, Dates(reader.numbers()?))),
        kind::LIST => Some(Frame::List),
        kind::ENQUEUE => Some(Frame::Enqueue(reader.load()?)),
        kind::DEQUEUE => Some(Frame::Dequeue(reader.load()?)),
        kind::ROOM => Some(Frame::Room),
        kind::RULED_FREE => read_ruled(reader, |it| Some(Ruled::Free(read_rated(it)?))),
        kind::RULED_PRIORITY => read_ruled(reader, |it| Some(Ruled::Priority(read_rated(it)?))),
        kind::RULED_POLY => read_ruled(reader, |it| Some(Ruled::Poly(read_poly(it)?))),
        _ => None,
    }
}

/// "frames 21, 22 and 23 are 01, 02 and 03 with a rule byte added last".
fn read_ruled(
    reader: &mut Reader,
    opening: impl FnOnce(&mut Reader) -> Option<Ruled>,
) -> Option<Frame> {
    let opening = opening(reader)?;
    Some(Frame::OpenRuled(opening, reader.byte()?))
}

fn read_rated(reader: &mut Reader) -> Option<RatedOpening> {
    let window = reader.window()?;
    let rate_count = reader.byte()?;
    let delay_count = reader.byte()?;
    Some(RatedOpening {
        window,
        rates: reader.spans(rate_count)?,
        delays: reader.spans(delay_count)?,
    })
}

fn read_poly(reader: &mut Reader) -> Option<PolyOpening> {
    let window = reader.window()?;
    let offset = reader.number()?;
    let coefficients = reader.numbers()?;
    let delay_count = reader.byte()?;
    Some(PolyOpening {
        window,
        offset,
        coefficients,
        delays: reader.spans(delay_count)?,
    })
}

fn read_queue(reader: &mut Reader) -> Option<QueueOpening> {
    let flags = reader.byte()?;
    if flags > flag::ALL {
        return None;
    }
    Some(QueueOpening {
        flags,
        classes: reader.byte()?,
        window: reader.window()?,
        rate: reader.number()?,
        delay: reader.number()?,
        budgets: reader.numbers()?,
    })
}

// ---------------------------------------------------------------------------
// Reading answers

/// The dates of a dry run's answer, `None` for any other line.
pub fn decode_offer(line: &[u8]) -> Option<Dates> {
    decode_done(line, |reader| Some(Dates(reader.numbers()?)))
}

/// The segments of an answer to frame 12, `None` for any other line.
pub fn decode_list(line: &[u8]) -> Option<Vec<Span>> {
    decode_done(line, |reader| {
        let count = reader.byte()?;
        reader.spans(count)
    })
}

/// An answer's zero and, to the line's end, what follows it.
fn decode_done<T>(line: &[u8], read: impl FnOnce(&mut Reader) -> Option<T>) -> Option<T> {
    let mut place = [0; MAX_ANSWER_BYTES];
    let mut reader = Reader {
        rest: digits_to_bytes(line, &mut place)?,
    };
    if reader.byte()? != DONE {
        return None;
    }
    let content = read(&mut reader)?;
    reader.rest.is_empty().then_some(content)
}

// ---------------------------------------------------------------------------
// Writing

/// Appends bytes as digits.
struct Writer<'a> {
    line: &'a mut Vec<u8>,
}

impl Writer<'_> {
    fn byte(&mut self, byte: u8) {
        const DIGITS: &[u8; 16] = b"0123456789abcdef";
        self.line.push(DIGITS[(byte >> 4) as usize]);
        self.line.push(DIGITS[(byte & 0xf) as usize]);
    }

    fn number(&mut self, number: i64) {
        for byte in number.to_be_bytes() {
            self.byte(byte);
        }
    }

    fn numbers(&mut self, numbers: &[i64]) {
        for number in numbers {
            self.number(*number);
        }
    }

    fn spans(&mut self, spans: &[Span]) {
        for span in spans {
            self.numbers(&[span.start, span.end, span.value]);
        }
    }

    fn load(&mut self, load: Load) {
        self.number(load.size);
        self.byte(load.priority);
    }

    fn request(&mut self, request: Request) {
        self.number(request.time);
        self.load(request.load);
    }

    fn rated(&mut self, opening: &RatedOpening) {
        self.numbers(&[opening.window.start, opening.window.end]);
        self.byte(opening.rates.len() as u8);
        self.byte(opening.delays.len() as u8);
        self.spans(&opening.rates);
        self.spans(&opening.delays);
    }

    fn poly(&mut self, opening: &PolyOpening) {
        self.numbers(&[opening.window.start, opening.window.end, opening.offset]);
        self.numbers(&opening.coefficients);
        self.byte(opening.delays.len() as u8);
        self.spans(&opening.delays);
    }

    fn ruled(&mut self, opening: &Ruled, rule: u8) {
        match opening {
            Ruled::Free(opening) | Ruled::Priority(opening) => self.rated(opening),
            Ruled::Poly(opening) => self.poly(opening),
        }
        self.byte(rule);
    }

    fn queue(&mut self, opening: &QueueOpening) {
        self.byte(opening.flags);
        self.byte(opening.classes);
        self.numbers(&[opening.window.start, opening.window.end]);
        self.numbers(&[opening.rate, opening.delay]);
        self.numbers(&opening.budgets);
    }
}

impl Ruled {
    /// As frame 01, 02 or 03.
    pub fn plain(self) -> Frame {
        match self {
            Ruled::Free(opening) => Frame::OpenFree(opening),
            Ruled::Priority(opening) => Frame::OpenPriority(opening),
            Ruled::Poly(opening) => Frame::OpenPoly(opening),
        }
    }
}

impl Frame {
    /// Frames 01 to 03 as 21 to 23, with this rule byte; any other as it is.
    pub fn ruled(self, rule: u8) -> Frame {
        match self {
            Frame::OpenFree(opening) => Frame::OpenRuled(Ruled::Free(opening), rule),
            Frame::OpenPriority(opening) => Frame::OpenRuled(Ruled::Priority(opening), rule),
            Frame::OpenPoly(opening) => Frame::OpenRuled(Ruled::Poly(opening), rule),
            other => other,
        }
    }

    pub fn is_opening(&self) -> bool {
        self.kind() < kind::DRY_RUN || matches!(self, Frame::OpenRuled(..))
    }

    pub fn kind(&self) -> u8 {
        match self {
            Frame::OpenFree(_) => kind::OPEN_FREE,
            Frame::OpenPriority(_) => kind::OPEN_PRIORITY,
            Frame::OpenPoly(_) => kind::OPEN_POLY,
            Frame::OpenQueue(_) => kind::OPEN_QUEUE,
            Frame::OpenRuled(Ruled::Free(_), _) => kind::RULED_FREE,
            Frame::OpenRuled(Ruled::Priority(_), _) => kind::RULED_PRIORITY,
            Frame::OpenRuled(Ruled::Poly(_), _) => kind::RULED_POLY,
            Frame::DryRun(_) => kind::DRY_RUN,
            Frame::Book(..) => kind::BOOK,
            Frame::List => kind::LIST,
            Frame::Enqueue(_) => kind::ENQUEUE,
            Frame::Dequeue(_) => kind::DEQUEUE,
            Frame::Room => kind::ROOM,
        }
    }

    pub fn encode(&self) -> Vec<u8> {
        let mut line = Vec::new();
        let mut writer = Writer { line: &mut line };
        writer.byte(self.kind());
        match self {
            Frame::OpenFree(opening) | Frame::OpenPriority(opening) => writer.rated(opening),
            Frame::OpenPoly(opening) => writer.poly(opening),
            Frame::OpenQueue(opening) => writer.queue(opening),
            Frame::OpenRuled(opening, rule) => writer.ruled(opening, *rule),
            Frame::DryRun(request) => writer.request(*request),
            Frame::Book(request, dates) => {
                writer.request(*request);
                writer.numbers(&dates.0);
            }
            Frame::List | Frame::Room => {}
            Frame::Enqueue(load) | Frame::Dequeue(load) => writer.load(*load),
        }
        line
    }
}

/// Appends an answer's line without a line end.
pub fn encode_answer(answer: &Answer, line: &mut Vec<u8>) {
    let mut writer = Writer { line };
    let content = match answer {
        Ok(content) => content,
        Err(refusal) => return writer.byte(refusal.number()),
    };
    writer.byte(DONE);
    match content {
        Content::Nothing => {}
        Content::Offer(dates) => writer.numbers(&dates.0),
        Content::Segments(spans) => {
            writer.byte(spans.len() as u8);
            writer.spans(spans);
        }
        Content::Queues(queues) => {
            writer.byte(queues.len() as u8);
            writer.numbers(queues);
        }
        Content::Room(sum) => writer.number(*sum),
    }
}
