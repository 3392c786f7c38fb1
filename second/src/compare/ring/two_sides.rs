//! Two sides that use one ring as they should, and a queue beside it that says
//! what must come of each of their calls.

use std::collections::VecDeque;

use super::calls::{Call, Calls};
use super::inputs::Place;
use crate::compare::twin::Twin;
use crate::link::outcome::{Outcome, ANSWER};
use crate::link::ring::{packet_length, LONGEST_CONTENT};

pub struct TwoSides {
    place: Place,
    region: Twin<u8>,
    /// The writer's own index.
    write_index: u32,
    /// The reader's own index.
    read_index: u32,
    /// Contents pushed and not yet pulled.
    queue: VecDeque<Vec<u8>>,
}

impl TwoSides {
    /// A region with these bytes, but for an empty ring whose two sides stand
    /// at `start`.
    pub fn new(place: Place, bytes: &[u8], start: u32) -> Self {
        let mut bytes = bytes.to_vec();
        let ring = place.ring(&mut bytes);
        *ring.read_index = start.to_le_bytes();
        *ring.write_index = start.to_le_bytes();
        TwoSides {
            place,
            region: Twin::new(&bytes),
            write_index: start,
            read_index: start,
            queue: VecDeque::new(),
        }
    }

    /// The region as the second implementation left it.
    pub fn region(&self) -> &[u8] {
        self.region.second()
    }

    /// Every byte must be as it is stated.
    pub fn check_region(&self, calls: &mut Calls, stated: &[u8]) {
        if self.region() != stated {
            calls.group.mismatch(|| {
                let second = self.region();
                format!("the region\n  stated: {stated:02x?}\n  second: {second:02x?}")
            });
        }
    }

    /// The reader begins anew, as a partner does that opens its end.
    pub fn reader_opens(&mut self) {
        self.read_index = 0;
    }

    /// Packets on the ring.
    pub fn packets(&self) -> usize {
        self.queue.len()
    }

    /// Bytes of the packets on the ring.
    pub fn unread(&self) -> usize {
        let packets = self.queue.iter();
        packets.map(|content| packet_length(content.len())).sum()
    }

    /// The longest packet that fits now.
    pub fn space(&self) -> usize {
        self.place.data_length - 1 - self.unread()
    }

    /// Empties the ring; from then on its reader has to stand at 0.
    pub fn start(&mut self, calls: &mut Calls, content: &[u8]) {
        self.queue = VecDeque::from([content.to_vec()]);
        let stated = Outcome::accepted(content.len(), 0, self.place.data_length);
        let call = self.call(0, stated);
        self.write_index = calls.start(&call, &mut self.region).own_index;
    }

    pub fn push(&mut self, calls: &mut Calls, content: &[u8]) {
        let stated = if content.len() > LONGEST_CONTENT {
            Outcome::refused(11, self.write_index)
        } else if packet_length(content.len()) > self.space() {
            Outcome::refused(10, self.write_index)
        } else {
            self.queue.push_back(content.to_vec());
            Outcome::accepted(content.len(), self.write_index, self.place.data_length)
        };
        let call = self.call(self.write_index, stated);
        self.write_index = calls.push(&call, &mut self.region, content).own_index;
    }

    /// Pulls into a buffer that holds these bytes before.
    pub fn pull(&mut self, calls: &mut Calls, before: &[u8]) {
        let mut expected = before.to_vec();
        let stated = match self.queue.pop_front() {
            None => Outcome::refused(8, self.read_index),
            Some(content) => {
                for (place, byte) in expected.iter_mut().zip(&content) {
                    *place = *byte;
                }
                Outcome::accepted(content.len(), self.read_index, self.place.data_length)
            }
        };
        self.pull_as_stated(calls, stated, before, &expected);
    }

    /// Pulls when the next packet claims a content that is longer than what is
    /// unread. All packets are gone, the buffer stays as it was, and so does
    /// every byte of the region but for the read index.
    pub fn pull_broken(&mut self, calls: &mut Calls, claimed: usize, before: &[u8]) {
        let claimed = (claimed as u16).to_be_bytes();
        for region in self.region.lend() {
            let packet = &mut self.place.ring(region).data[self.read_index as usize..];
            packet[..claimed.len()].copy_from_slice(&claimed);
        }
        let mut expected = self.region().to_vec();
        *self.place.ring(&mut expected).read_index = self.write_index.to_le_bytes();
        let stated = Outcome::broken(self.write_index, self.unread());
        self.queue.clear();

        self.pull_as_stated(calls, stated, before, before);
        self.check_region(calls, &expected);
    }

    /// Pulls into a buffer with these bytes, which holds others then.
    fn pull_as_stated(
        &mut self,
        calls: &mut Calls,
        stated: Outcome,
        before: &[u8],
        expected: &[u8],
    ) {
        let call = self.call(self.read_index, stated);
        let mut buffer = Twin::new(before);
        self.read_index = calls.pull(&call, &mut self.region, &mut buffer).own_index;
        if buffer.second() != expected {
            calls.group.mismatch(|| {
                format!(
                    "{}, own index {}\n  expected: {expected:02x?}\n  pulled: {:02x?}",
                    call.request,
                    call.own_index,
                    buffer.second()
                )
            });
        }
    }

    fn call(&self, own_index: u32, stated: Outcome) -> Call {
        Call {
            request: self.place.request,
            own_index,
            answer_length: ANSWER,
            stated: Some(stated),
        }
    }
}
