//! What the bytes of a region say: unread packets, the messages that they
//! announce, and what would be refused.

use std::fmt::{self, Display, Formatter};

use crate::link::end::{number_at, Control, ControlKind, Message, Name, Region};
use crate::link::layout::Request;
use crate::link::refusal::{refuse, Refusal};
use crate::link::ring::{self, is_start, Dropped, RefusedPull, LONGEST_CONTENT};
use crate::look::words::{hex, refused, strange, text_or_hex};

/// Bytes of a bad name that are shown.
const NAME_SHOWN: usize = 16;

pub struct Dump<'a> {
    pub region: Region,
    pub bytes: &'a [u8],
    pub read_index: u32,
    pub write_index: u32,
    /// Those that can be pulled, from the read index on.
    pub packets: Vec<Packet>,
    /// What the pull behind them comes to.
    pub stop: RefusedPull,
    pub odd: Vec<Odd>,
}

/// An unread packet.
pub struct Packet {
    /// Its index in the data.
    pub at: u32,
    pub content: Vec<u8>,
    /// What it says, or what its arrival is refused with. To an arrival a start
    /// is of unknown kind.
    pub said: Result<Said, Refusal>,
}

/// What a control message says, as far as its arrival does not depend on what
/// an end keeps.
pub struct Said {
    pub control: Control,
    /// The message in this region's blocks that it announces.
    pub message: Option<Message>,
    /// That of a binding.
    pub name: Option<Name>,
}

/// Something that is not as it should be.
pub struct Odd {
    pub place: String,
    pub refusal: Option<Refusal>,
    /// Of what it speaks, if the refusal alone does not say it.
    pub note: String,
}

impl Display for Odd {
    fn fmt(&self, f: &mut Formatter) -> fmt::Result {
        write!(f, "{}", self.place)?;
        if let Some(refusal) = self.refusal {
            write!(f, " {}", refused(refusal))?;
        }
        if !self.note.is_empty() {
            write!(f, " ({})", self.note)?;
        }
        Ok(())
    }
}

impl<'a> Dump<'a> {
    /// The refusal is that of the layout, or 6 if these are not as many bytes
    /// as the region has.
    pub fn read(request: &Request, bytes: &'a [u8]) -> Result<Self, Refusal> {
        let region = Region::new(*request)?;
        region.check_whole(bytes.len())?;
        let mut dump = Dump {
            read_index: number_at(bytes, region.read_index_place()),
            write_index: number_at(bytes, region.write_index_place()),
            region,
            bytes,
            packets: Vec::new(),
            stop: Refusal::Empty.into(),
            odd: Vec::new(),
        };
        dump.pull_all();
        dump.find_odd_ring();
        dump.find_odd_packets();
        Ok(dump)
    }

    /// Bytes from the read index to the write index, if both are in rule.
    pub fn unread(&self) -> Option<usize> {
        let [read, write] = [self.read_index, self.write_index];
        let data_length = self.region.layout.data_length;
        let in_rule = self.in_rule(read) && self.in_rule(write);
        in_rule.then(|| ((data_length + write - read) % data_length) as usize)
    }

    pub fn in_rule(&self, index: u32) -> bool {
        index < self.region.layout.data_length && index.is_multiple_of(4)
    }

    /// Pulls until there is nothing to pull, on a copy.
    fn pull_all(&mut self) {
        let mut copy = self.bytes.to_vec();
        let mut buffer = vec![0; LONGEST_CONTENT];
        let mut at = self.read_index;
        loop {
            match ring::pull(&self.region.request, at, &mut copy, &mut buffer) {
                Ok(moved) => {
                    let content = buffer[..moved.length as usize].to_vec();
                    let said = self.judge(&content);
                    self.packets.push(Packet { at, content, said });
                    at = moved.own_index;
                }
                Err(refused) => {
                    self.stop = refused;
                    return;
                }
            }
        }
    }

    /// The checks of an arrival that the bytes alone decide.
    fn judge(&self, content: &[u8]) -> Result<Said, Refusal> {
        let control = Control::read(content)?;
        if control.kind != ControlKind::ReleaseData {
            control.check_address()?;
        }
        let mut said = Said {
            control,
            message: None,
            name: None,
        };
        if !control.kind.announces() {
            // A release names a block of the other region.
            let remote_blocks = self.region.request.remote_blocks;
            refuse(control.start() >= remote_blocks, Refusal::BadBlock)?;
            return Ok(said);
        }
        let message = self.region.message(self.bytes, control.start())?;
        if control.kind == ControlKind::Bound {
            let behind = &self.bytes[self.region.header(message.start).end..];
            said.name = Some(Name::arriving(behind, message.k)?);
        }
        said.message = Some(message);
        Ok(said)
    }

    fn find_odd_ring(&mut self) {
        let data_length = self.region.layout.data_length;
        let rule = format!("it has to be below {data_length} and a multiple of 4");
        let indexes = [
            ("read", self.read_index, "push"),
            ("write", self.write_index, "pull"),
        ];
        for (name, index, call) in indexes {
            if !self.in_rule(index) {
                self.odd.push(Odd {
                    place: format!("{name} index {}: a {call} is", strange(index)),
                    refusal: Some(Refusal::BadIndex),
                    note: rule.clone(),
                });
            }
        }
        if let Some(Dropped { bytes, .. }) = self.stop.dropped {
            let at = (self.write_index + data_length - bytes) % data_length;
            let header: Vec<u8> = self.data_at(at).take(4).collect();
            let claimed = u16::from_be_bytes([header[0], header[1]]);
            self.odd.push(Odd {
                place: format!("packet at {at}: a pull is"),
                refusal: Some(self.stop.refusal),
                note: format!(
                    "{}: {claimed} bytes of content, {bytes} unread, and the pull drops them",
                    hex(&header, header.len())
                ),
            });
        }
        if self.read_index == 0 && self.write_index == 0 && !self.starts_at_0() {
            self.odd.push(Odd {
                place: "the ring was not started: both indexes are 0, and there is no start packet"
                    .to_string(),
                refusal: None,
                note: String::new(),
            });
        }
    }

    /// True if the start packet stands where every ring begins.
    pub fn starts_at_0(&self) -> bool {
        let data: Vec<u8> = self.data_at(0).take(17).collect();
        data.starts_with(&[0, 13]) && is_start(&data[4..])
    }

    /// The data from an index on, once around.
    pub fn data_at(&self, index: u32) -> impl Iterator<Item = u8> + '_ {
        let length = self.region.layout.data_length as usize;
        let places = self.region.data_places(index, length);
        places.flat_map(|place| self.bytes[place].iter().copied())
    }

    /// The bytes that a refused arrival of this content is about.
    fn reason(&self, content: &[u8], refusal: Refusal) -> String {
        let Ok(control) = Control::read(content) else {
            return String::new();
        };
        let Control { address, block, .. } = control;
        match refusal {
            Refusal::BadAddress => format!("0x{address:02x}"),
            Refusal::BadBlock if control.kind.announces() => {
                format!("{block} of {}", self.region.block_count())
            }
            Refusal::BadBlock => {
                let remote_blocks = self.region.request.remote_blocks;
                format!("{block} of the other region's {remote_blocks}")
            }
            Refusal::PastTheLastBlock => {
                let k = self.region.read_k(self.bytes, control.start());
                format!("K {} in block {block}", strange(k))
            }
            Refusal::BadName => {
                let message = self.region.header(control.start()).end;
                let k = self.region.read_k(self.bytes, control.start()) as usize;
                text_or_hex(&self.bytes[message..message + k], NAME_SHOWN)
            }
            _ => String::new(),
        }
    }

    fn find_odd_packets(&mut self) {
        let mut odd = Vec::new();
        // The packet that announces a block, for each of them.
        let mut announced = vec![None; self.region.block_count() as usize];
        for Packet { at, content, said } in &self.packets {
            let reserved: Vec<u8> = self.data_at(*at).skip(2).take(2).collect();
            if reserved != [0, 0] {
                odd.push(Odd {
                    place: format!("packet at {at}: the reserved bytes are not zero"),
                    refusal: None,
                    note: format!("{}, nobody looks at them", hex(&reserved, 2)),
                });
            }
            let place = format!("packet at {at}: its arrival is");
            match said {
                Err(_) if is_start(content) => {}
                Err(refusal) => odd.push(Odd {
                    place,
                    refusal: Some(*refusal),
                    note: self.reason(content, *refusal),
                }),
                Ok(Said { message, .. }) => {
                    let blocks = message.as_ref().map_or(0..0, Message::blocks);
                    let blocks = &mut announced[blocks.start as usize..blocks.end as usize];
                    if let Some(earlier) = blocks.iter().find_map(|block| *block) {
                        odd.push(Odd {
                            place,
                            refusal: Some(Refusal::BlockHeld),
                            note: format!("until that of the packet at {earlier} is done with"),
                        });
                    }
                    blocks.fill(Some(*at));
                }
            }
        }
        self.odd.append(&mut odd);
    }
}
