//! The ring of one region: packets on their way from one side to the other.
//!
//! The writer keeps the write index and the reader the read index. A caller
//! hands its own one in, so that only the partner's is read from memory.

use std::array;

use crate::link::fault::{in_order, planted, unless, Fault};
use crate::link::layout::{RingPlace, Ringed};
use crate::link::refusal::{refuse, Refusal};

/// The most bytes of a content: its length has to fit two bytes.
pub const LONGEST_CONTENT: usize = u16::MAX as usize;

/// Bytes of an index, and what packets and indexes are multiples of.
pub const UNIT: usize = 4;

/// Bytes of a packet before its content: the length, then two reserved ones.
const PACKET_HEADER: usize = 4;

/// The first packet's content on every ring.
pub const START_CONTENT: [u8; 13] = [
    0x45, 0x6d, 0x31, 0x6c, 0x31, 0x4b, 0x30, 0x72, 0x6e, 0x33, 0x6c, 0x69, 0x34,
];

/// What an accepted call reports.
pub struct Moved {
    /// Bytes of the packet's content, whether or not all of them were copied.
    pub length: u32,
    /// The caller's own index from now on.
    pub own_index: u32,
}

/// Why a pull is refused, and what it dropped.
pub struct RefusedPull {
    pub refusal: Refusal,
    /// With 9 alone; any other refusal changes nothing.
    pub dropped: Option<Dropped>,
}

/// What was unread when a broken packet was met.
#[derive(Clone, Copy)]
pub struct Dropped {
    pub bytes: u32,
    /// The reader's own index from now on.
    pub own_index: u32,
}

impl From<Refusal> for RefusedPull {
    fn from(refusal: Refusal) -> Self {
        RefusedPull {
            refusal,
            dropped: None,
        }
    }
}

/// Empties the ring and puts the start content on it.
pub fn start(request: &impl Ringed, region: &mut [u8]) -> Result<Moved, Refusal> {
    start_at(request, 0, region)
}

/// The same with the packet at an index, which is 0 unless a fault is planted.
pub fn start_at(request: &impl Ringed, index: u32, region: &mut [u8]) -> Result<Moved, Refusal> {
    let ring = Ring::find(request, region)?;
    *ring.read_index = [0; UNIT];
    *ring.write_index = [0; UNIT];
    push(request, index, region, &START_CONTENT)
}

/// True if a content is exactly that of a start.
pub fn is_start(content: &[u8]) -> bool {
    content == START_CONTENT
}

/// Puts a packet with this content on the ring, at the writer's index.
pub fn push(
    request: &impl Ringed,
    own_index: u32,
    region: &mut [u8],
    content: &[u8],
) -> Result<Moved, Refusal> {
    let mut ring = Ring::find(request, region)?;
    let write = ring.check_push(own_index, content.len())?;
    Ok(ring.put(write, content))
}

/// Takes the packet at the reader's index off the ring. The buffer gets as
/// much of its content as fits. With a broken packet goes all that is unread.
pub fn pull(
    request: &impl Ringed,
    own_index: u32,
    region: &mut [u8],
    buffer: &mut [u8],
) -> Result<Moved, RefusedPull> {
    let mut ring = Ring::find(request, region)?;
    let unread = ring.unread(own_index)?;
    unread.check_any()?;
    let packet = ring.packet_at(unread.read);
    ring.check_whole(&unread, &packet, buffer)?;
    Ok(ring.take(&packet, buffer))
}

/// Bytes that a packet takes on the ring.
pub fn packet_length(content_length: usize) -> usize {
    (PACKET_HEADER + content_length).next_multiple_of(UNIT)
}

/// The index that many bytes further on, in a ring of that many data bytes.
pub fn past(index: usize, bytes: usize, data_length: usize) -> u32 {
    ((index + bytes) % data_length) as u32
}

/// The bytes of a packet.
pub fn packet(content: &[u8]) -> Vec<u8> {
    let length = u16::try_from(content.len()).expect("a longer content is refused");
    let mut packet = length.to_be_bytes().to_vec();
    packet.extend([0, 0]);
    packet.extend(content);
    packet.resize(packet_length(content.len()), 0);
    packet
}

/// The parts of a ring: the read index, bytes up to the alignment that nobody
/// uses, the write index, the data.
pub struct Ring<'a> {
    pub read_index: &'a mut [u8; UNIT],
    pub write_index: &'a mut [u8; UNIT],
    pub data: &'a mut [u8],
}

/// Where unread bytes begin and end, and how many they are.
pub struct Unread {
    pub read: usize,
    pub write: usize,
    bytes: usize,
}

impl Unread {
    /// Refuses an empty ring.
    pub fn check_any(&self) -> Result<(), Refusal> {
        let empty = self.bytes == 0 && !planted(Fault::EmptyIsBroken);
        refuse(empty, Refusal::Empty)
    }
}

/// A packet as its first bytes have it; they can claim anything.
pub struct Packet {
    at: usize,
    /// Bytes of its content.
    pub length: u16,
    reserved: [u8; 2],
}

impl Packet {
    /// Bytes that it takes on the ring.
    fn whole(&self) -> usize {
        packet_length(self.length.into())
    }
}

impl<'a> Ring<'a> {
    /// The ring in a raw region that is lent whole.
    pub fn find(request: &impl Ringed, region: &'a mut [u8]) -> Result<Self, Refusal> {
        let RingPlace {
            raw_length,
            read_index,
            write_index,
            data,
        } = request.ring_place()?;
        refuse(region.len() != raw_length, Refusal::WrongRegion)?;

        let (header, rest) = region.split_at_mut(data.start);
        let (before_write_index, from_write_index) = header.split_at_mut(write_index);
        Ok(Ring {
            read_index: before_write_index[read_index..]
                .first_chunk_mut()
                .expect("no alignment is below 4"),
            write_index: from_write_index
                .first_chunk_mut()
                .expect("the data begins behind the write index"),
            data: &mut rest[..data.len()],
        })
    }

    /// Where a packet with that much content goes, if it can be pushed now.
    pub fn check_push(&self, own_index: u32, content_length: usize) -> Result<usize, Refusal> {
        let write = self.in_rule(own_index).ok_or(Refusal::WrongRegion)?;
        let length = refuse(content_length > LONGEST_CONTENT, Refusal::TooLong);
        let read = u32::from_le_bytes(*self.read_index);
        let read = self.in_rule(read).ok_or(Refusal::BadIndex);
        in_order(Fault::IndexBeforeLength, length, read.map(|_| ()))?;
        self.check_space(read?, write, content_length)?;
        Ok(write)
    }

    /// Refuses a packet with that much content if it does not fit from the
    /// writer's index on to the reader's.
    pub fn check_space(
        &self,
        read: usize,
        write: usize,
        content_length: usize,
    ) -> Result<(), Refusal> {
        let length = self.data.len();
        // Were all bytes used, the indexes would be equal, as in an empty ring.
        let most = unless(Fault::FullAtLength, length - 1, length);
        let unpadded = PACKET_HEADER + content_length;
        let packet = packet_length(content_length);
        let counted = unless(Fault::PaddingUncounted, packet, unpadded);
        let used = self.distance(read, write);
        refuse(counted + used > most, Refusal::Full)
    }

    /// Puts a packet at an index, and writes out the index behind it.
    pub fn put(&mut self, write: usize, content: &[u8]) -> Moved {
        let packet = packet(content);
        let unpadded = PACKET_HEADER + content.len();
        let written = unless(Fault::PaddingLeft, packet.len(), unpadded);
        for (place, byte) in self.once_around(write).zip(&packet[..written]) {
            *place = *byte;
        }
        let own_index = past(write, packet.len(), self.data.len());
        *self.write_index = own_index.to_le_bytes();
        Moved {
            length: content.len() as u32,
            own_index,
        }
    }

    /// What is unread, from the reader's index on.
    pub fn unread(&mut self, own_index: u32) -> Result<Unread, RefusedPull> {
        let in_memory = u32::from_le_bytes(*self.read_index);
        let own_index = unless(Fault::OwnIndexRead, own_index, in_memory);
        let read = self.in_rule(own_index).ok_or(Refusal::WrongRegion)?;
        let write = u32::from_le_bytes(*self.write_index);
        let Some(write) = self.in_rule(write) else {
            let wrong = planted(Fault::BadIndexDrops);
            return Err(RefusedPull {
                refusal: Refusal::BadIndex,
                dropped: wrong.then(|| self.go_on(read, write as usize)),
            });
        };
        Ok(Unread {
            read,
            write,
            bytes: self.distance(read, write),
        })
    }

    /// The packet that begins at an index.
    pub fn packet_at(&self, at: usize) -> Packet {
        let [high, low, reserved @ ..]: [u8; PACKET_HEADER] =
            array::from_fn(|byte| self.data[(at + byte) % self.data.len()]);
        Packet {
            at,
            length: u16::from_be_bytes([high, low]),
            reserved,
        }
    }

    /// Refuses a packet that is longer than what is unread, and drops all of
    /// that. The buffer stays as it is, unless a fault is planted.
    pub fn check_whole(
        &mut self,
        unread: &Unread,
        packet: &Packet,
        buffer: &mut [u8],
    ) -> Result<(), RefusedPull> {
        let content_alone = packet.length.into();
        let counted = unless(Fault::PacketHeaderUncounted, packet.whole(), content_alone);
        let reserved_read = planted(Fault::ReservedBytesRead) && packet.reserved != [0, 0];
        if counted <= unread.bytes && !reserved_read {
            return Ok(());
        }
        if planted(Fault::BrokenContentCopied) {
            self.copy_content(packet, buffer);
        }
        Err(RefusedPull {
            refusal: Refusal::BrokenPacket,
            dropped: self.drop_unread(unread.read, unread.write, packet.whole()),
        })
    }

    /// Takes a whole packet off the ring.
    pub fn take(&mut self, packet: &Packet, buffer: &mut [u8]) -> Moved {
        self.copy_content(packet, buffer);
        let own_index = self.behind(packet);
        *self.read_index = own_index.to_le_bytes();
        let copied = usize::from(packet.length).min(buffer.len()) as u16;
        Moved {
            length: unless(Fault::CopiedReported, packet.length, copied).into(),
            own_index,
        }
    }

    /// The index behind a packet.
    pub fn behind(&self, packet: &Packet) -> u32 {
        past(packet.at, packet.whole(), self.data.len())
    }

    /// The index as a position in the data, if it is one where a packet can
    /// begin.
    fn in_rule(&self, index: u32) -> Option<usize> {
        let index = index as usize;
        let length = self.data.len();
        let below = unless(Fault::IndexAtLength, length, length + 1);
        let on_unit = index.is_multiple_of(UNIT) || planted(Fault::IndexOffUnit);
        (index < below && on_unit).then_some(index)
    }

    /// Bytes from the read index on to the write index.
    fn distance(&self, read: usize, write: usize) -> usize {
        (self.data.len() + write - read) % self.data.len()
    }

    /// Copies as much of a packet's content as the buffer takes.
    pub fn copy_content(&mut self, packet: &Packet, buffer: &mut [u8]) {
        let content = self.once_around(packet.at).skip(PACKET_HEADER);
        let content = content.take(packet.length.into());
        for (place, byte) in buffer.iter_mut().zip(content) {
            *place = *byte;
        }
    }

    /// Goes on at the writer's index: behind a broken packet nobody knows where
    /// another one begins.
    fn drop_unread(&mut self, read: usize, write: usize, packet_length: usize) -> Option<Dropped> {
        let past = |bytes| past(read, bytes, self.data.len()) as usize;
        let to = unless(Fault::BrokenPacketSkipped, write, past(packet_length));
        let to = unless(Fault::BrokenHeaderSkipped, to, past(PACKET_HEADER));
        let to = unless(Fault::NextPacketSought, to, self.next_packet(read, write));
        let to = unless(Fault::DropClearsIndexes, to, 0);
        if planted(Fault::DropClearsIndexes) {
            *self.write_index = [0; UNIT];
        }
        (!planted(Fault::NothingDropped)).then(|| self.go_on(read, to))
    }

    /// Writes out where the reader goes on, and gives what it drops by that.
    pub fn go_on(&mut self, read: usize, to: usize) -> Dropped {
        let own_index = to as u32;
        if !planted(Fault::DropUnwritten) {
            *self.read_index = own_index.to_le_bytes();
        }
        let bytes = self.distance(read, to) as u32;
        let unwrapped = own_index.wrapping_sub(read as u32);
        let bytes = unless(Fault::DroppedUnwrapped, bytes, unwrapped);
        Dropped {
            bytes: unless(Fault::DroppedUnsaid, bytes, 0),
            own_index: unless(Fault::DropKeepsOwnIndex, own_index, read as u32),
        }
    }

    /// The first place behind a broken packet's header where one could begin:
    /// what a planted fault looks for.
    fn next_packet(&self, read: usize, write: usize) -> usize {
        let unread = self.distance(read, write);
        for dropped in (UNIT..unread).step_by(UNIT) {
            let at = past(read, dropped, self.data.len()) as usize;
            if self.packet_at(at).whole() <= unread - dropped {
                return at;
            }
        }
        write
    }

    /// Every byte of the data, from an index to the end and then from the
    /// start.
    fn once_around(&mut self, index: usize) -> impl Iterator<Item = &mut u8> {
        let (before, from) = self.data.split_at_mut(index);
        from.iter_mut().chain(before)
    }
}
