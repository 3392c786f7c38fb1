//! Receiving: a pull that takes a content whole or not at all.

use super::{lent, Plain};
use crate::link::fault::{planted, unless, Fault};
use crate::link::outcome::Outcome;
use crate::link::refusal::{refuse, Refusal};
use crate::link::ring::{
    is_start, packet_length, Dropped, Moved, Packet, RefusedPull, Ring, Unread, UNIT,
};

/// Takes the packet at the reader's index off the ring, if the buffer takes its
/// whole content. With a broken packet goes all that is unread.
pub fn receive(region: &Plain, own_index: u32, bytes: &mut [u8], buffer: &mut [u8]) -> Outcome {
    let mut ring = match Ring::find(region, lent(region, bytes)) {
        Ok(ring) => ring,
        Err(refusal) => return Outcome::refused(refusal as u32, own_index),
    };
    let received = receive_from(&mut ring, own_index, buffer);
    let mut outcome = Outcome::of(own_index, received);
    if outcome.refusal == Refusal::ShortBuffer as u32 && planted(Fault::ShortReported) {
        outcome.length = ring.packet_at(own_index as usize).length.into();
    }
    outcome
}

fn receive_from(ring: &mut Ring, own_index: u32, buffer: &mut [u8]) -> Result<Moved, RefusedPull> {
    let unread = ring.unread(own_index).map_err(own_index_refusal)?;
    let packet = ring.packet_at(unread.read);
    let short = is_short(&packet, buffer.len());
    let too_early = |fault| refuse(short && planted(fault), Refusal::ShortBuffer);

    too_early(Fault::ShortBeforeEmpty)?;
    unread.check_any()?;
    let no_content = packet.length == 0 && planted(Fault::NoContentIsEmpty);
    refuse(no_content, Refusal::Empty)?;
    too_early(Fault::ShortBeforeBroken)?;
    check_whole(ring, &unread, &packet, buffer)?;
    if short {
        return Err(RefusedPull {
            refusal: Refusal::ShortBuffer,
            dropped: moved_by_short(ring, &unread, &packet, buffer),
        });
    }
    Ok(take(ring, packet, buffer))
}

/// A refusal as it is, unless a fault is planted.
fn own_index_refusal(refused: RefusedPull) -> RefusedPull {
    match refused.refusal {
        Refusal::WrongRegion if planted(Fault::OwnIndexIs7) => Refusal::BadIndex.into(),
        _ => refused,
    }
}

/// True if the buffer is shorter than the content.
fn is_short(packet: &Packet, buffer_length: usize) -> bool {
    let content = usize::from(packet.length);
    let wanted = unless(
        Fault::PaddedIsShort,
        content,
        content.next_multiple_of(UNIT),
    );
    let wanted = unless(Fault::PacketIsShort, wanted, packet_length(content));
    let wanted = unless(Fault::ExactIsShort, wanted, content + 1);
    let cut = usize::from(buffer_length as u16);
    let has = unless(Fault::BufferInTwoBytes, buffer_length, cut);
    has < wanted && !planted(Fault::ContentCut)
}

/// Refuses a broken packet as a pull does.
fn check_whole(
    ring: &mut Ring,
    unread: &Unread,
    packet: &Packet,
    buffer: &mut [u8],
) -> Result<(), RefusedPull> {
    let before = *ring.read_index;
    let checked = ring.check_whole(unread, packet, buffer);
    if planted(Fault::ReceiveDropsNothing) {
        *ring.read_index = before;
        return checked.map_err(|refused| refused.refusal.into());
    }
    checked
}

/// What a buffer that is too short moves: nothing, unless a fault is planted.
fn moved_by_short(
    ring: &mut Ring,
    unread: &Unread,
    packet: &Packet,
    buffer: &mut [u8],
) -> Option<Dropped> {
    if planted(Fault::ShortCopied) {
        ring.copy_content(packet, buffer);
    }
    let behind = ring.behind(packet);
    if planted(Fault::ShortWritesIndex) || planted(Fault::ShortMovesOn) {
        *ring.read_index = behind.to_le_bytes();
    }
    let past = Dropped {
        bytes: 0,
        own_index: behind,
    };
    let moved = planted(Fault::ShortMovesOn).then_some(past);
    moved.or_else(|| planted(Fault::ShortDrops).then(|| ring.go_on(unread.read, unread.write)))
}

/// Takes a packet whose content the buffer takes.
fn take(ring: &mut Ring, mut packet: Packet, buffer: &mut [u8]) -> Moved {
    let before = *ring.read_index;
    let moved = ring.take(&packet, buffer);
    let length = usize::from(packet.length);
    if planted(Fault::IndexUnwritten) {
        *ring.read_index = before;
    }
    if planted(Fault::PaddingCopied) {
        let padded = packet.length.checked_next_multiple_of(UNIT as u16);
        packet.length = padded.unwrap_or(u16::MAX);
        ring.copy_content(&packet, buffer);
    }
    if planted(Fault::BufferCleared) {
        buffer[length..].fill(0);
    }
    let emptied = planted(Fault::StartIsEmpty) && is_start(&buffer[..length]);
    Moved {
        length: if emptied { 0 } else { moved.length },
        ..moved
    }
}
