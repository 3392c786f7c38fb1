//! The calls on the two rings of an end.

use std::ops::Range;

use super::answer::{Answer, Given, Refused, Slice, Written};
use super::region::Region;
use super::Open;
use crate::link::fault::{unless, Fault};
use crate::link::layout::ring_header;
use crate::link::refusal::Refusal;
use crate::link::ring::{self, packet_length, Dropped, Moved, RefusedPull, UNIT};

impl Open {
    /// Empties the transmit ring and pushes the start content on it.
    pub fn start(&mut self, transmit: &mut [u8]) -> Result<Answer, Refusal> {
        let region = &self.transmit;
        let index = unless(Fault::StartGoesOn, 0, self.write_index);
        let moved = ring::start_at(&region.request, index, transmit)?;
        self.read_index = unless(Fault::StartReadsAgain, self.read_index, 0);
        let read_index = self.transmit.read_index_place();
        let mut answer = self.pushed(index, moved);
        answer.written.push(transmitted(read_index));
        Ok(answer)
    }

    pub fn push(&mut self, transmit: &mut [u8], content: &[u8]) -> Result<Answer, Refusal> {
        let write = self.write_index;
        let moved = ring::push(&self.transmit.request, write, transmit, content)?;
        Ok(self.pushed(write, moved))
    }

    /// Goes on behind a packet that begins at an index.
    pub fn pushed(&mut self, index: u32, moved: Moved) -> Answer {
        let Moved { length, own_index } = moved;
        self.write_index = own_index;
        let region = &self.transmit;
        let packet = region.data_places(index, packet_length(length as usize));
        let mut answer = Answer::giving(Given::Length(length));
        answer.written.extend(packet.map(transmitted));
        answer.written.push(transmitted(region.write_index_place()));
        answer
    }

    pub fn pull(&mut self, receive: &mut [u8], buffer: &mut [u8]) -> Result<Answer, Refused> {
        match ring::pull(&self.receive.request, self.read_index, receive, buffer) {
            Ok(Moved { length, own_index }) => {
                let mut answer = self.reads_on(own_index, Given::Length(length));
                answer.written.push(Written {
                    slice: Slice::Buffer,
                    range: 0..buffer.len().min(length as usize),
                });
                Ok(answer)
            }
            Err(RefusedPull { refusal, dropped }) => Err(Refused {
                refusal,
                answer: dropped.map_or(Answer::default(), |dropped| self.dropped(dropped)),
            }),
        }
    }

    fn dropped(&mut self, Dropped { bytes, own_index }: Dropped) -> Answer {
        let [right, wrong] = [Given::Dropped(bytes), Given::Length(bytes)];
        self.reads_on(own_index, unless(Fault::DroppedIsLength, right, wrong))
    }

    /// Goes on at an index that has been written out.
    fn reads_on(&mut self, own_index: u32, given: Given) -> Answer {
        self.read_index = own_index;
        let mut answer = Answer::giving(given);
        answer.written.push(Written {
            slice: Slice::Receive,
            range: self.receive.read_index_place(),
        });
        answer
    }
}

pub fn transmitted(range: Range<usize>) -> Written {
    Written {
        slice: Slice::Transmit,
        range,
    }
}

/// Places of a region's ring, counted from the first byte of the raw region.
impl Region {
    pub fn read_index_place(&self) -> Range<usize> {
        let ring_at = (self.layout.begin - self.request.begin) as usize;
        ring_at..ring_at + UNIT
    }

    pub fn write_index_place(&self) -> Range<usize> {
        let begin = self.read_index_place().start + self.request.alignment as usize;
        begin..begin + UNIT
    }

    /// That many data bytes from an index on; they may wrap.
    pub fn data_places(&self, index: u32, length: usize) -> impl Iterator<Item = Range<usize>> {
        let data_length = self.layout.data_length as usize;
        let data =
            self.read_index_place().start + ring_header(self.request.alignment.into()) as usize;
        let end = index as usize + length;
        let to_end = data + index as usize..data + end.min(data_length);
        let wrapped = data..data + end.saturating_sub(data_length);
        [to_end, wrapped]
            .into_iter()
            .filter(|range| !range.is_empty())
    }
}
