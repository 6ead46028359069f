//! Segments, dates, requests and figures in readable form.

use std::fmt;

use crate::frames::{Dates, Request, Span};

pub struct Spans<'a>(pub &'a [Span]);

impl fmt::Display for Spans<'_> {
    fn fmt(&self, text: &mut fmt::Formatter) -> fmt::Result {
        if self.0.is_empty() {
            return write!(text, "none");
        }
        for (place, Span { start, end, value }) in self.0.iter().enumerate() {
            let comma = if place == 0 { "" } else { ", " };
            write!(text, "{comma}[{start},{end}) {value}")?;
        }
        Ok(())
    }
}

pub struct Sent(pub Dates);

impl fmt::Display for Sent {
    fn fmt(&self, text: &mut fmt::Formatter) -> fmt::Result {
        let Dates([start, end, from, to]) = self.0;
        write!(text, "send {start},{end}, receive {from},{to}")
    }
}

pub struct Asked(pub Request);

impl fmt::Display for Asked {
    fn fmt(&self, text: &mut fmt::Formatter) -> fmt::Result {
        let Request { time, load } = self.0;
        let (size, priority) = (load.size, load.priority);
        write!(text, "at {time}, size {size}, priority {priority}")
    }
}

/// Digits in groups of three.
pub fn grouped(number: usize) -> String {
    let digits = number.to_string();
    let mut text = String::new();
    for (place, digit) in digits.chars().enumerate() {
        if place > 0 && (digits.len() - place).is_multiple_of(3) {
            text.push(',');
        }
        text.push(digit);
    }
    text
}
