//! The queue manager, from "Managers": the reading that the trial of R-7 has, with
//! the flag off, behind the frames.

use oracle::frames::{Answer, Content, Frame, QueueOpening};
use oracle::refusal::Refusal;
use oracle::strict::flag::OFF;
use oracle::strict::queues::record::Record;
use oracle::strict::queues::terms::Opening;

use super::Reading;

pub fn open(contact: &QueueOpening) -> Record {
    Record::opened(&Opening {
        strict: OFF,
        contact: contact.clone(),
    })
}

impl Reading for Record {
    fn answer(&mut self, frame: &Frame) -> Answer {
        let done = match frame {
            Frame::DryRun(request) => {
                let offered = self.dry_run(*request);
                return offered.map(Content::Offer).map_err(Refusal::of);
            }
            Frame::List => return Ok(Content::Queues(self.listed().to_vec())),
            Frame::Book(request, stated) => self.book(*request, *stated),
            Frame::Enqueue(load) => self.enqueue(*load),
            Frame::Dequeue(load) => self.dequeue(*load),
            Frame::Room => return Err(Refusal::NotManual),
            _ => unreachable!("openings are not asked here"),
        };
        done.map(|()| Content::Nothing).map_err(Refusal::of)
    }
}
