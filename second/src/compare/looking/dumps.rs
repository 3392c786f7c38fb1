//! Dumps with random bytes in them: what is said of packets is what an end
//! answers to them, and any bytes can be shown.

use crate::compare::layout::inputs::{good_numbers, Numbers, MIXTURES};
use crate::compare::random::Random;
use crate::compare::report::Group;
use crate::compare::ring::inputs::Place;
use crate::compare::tally::Tally;
use crate::compare::Settings;
use crate::link::end::{Answer, End, Endpoint, Name, Opening, Outcome, DATA};
use crate::link::layout::Request;
use crate::link::refusal::Refusal;
use crate::link::ring::{self, packet_length};
use crate::look::region::{show, Dump, Packet};

/// Lines and columns of what is shown at most.
const MOST_LINES: usize = 54;
const MOST_COLUMNS: usize = 200;

/// One random dump for so many random cases of the other comparisons.
const CASES_PER_DUMP: u64 = 100;

/// Where the looked-at region lies, behind the reader's own, and how long it is
/// at most.
const BEGIN: i64 = 0x2008_0000;
const LONGEST: i64 = 4096;

/// Reads dumps with packets on their rings, and lets a follower pull them and
/// have their arrival.
pub fn as_answered(group: &mut Group, settings: &Settings) {
    let mut random = Random::new(settings.seed, 1 << 40);
    let mut pulls = Tally::default();
    let mut arrivals = Tally::default();
    for _ in 0..settings.cases.div_ceil(CASES_PER_DUMP) {
        let opening = opening(&mut random);
        let request = opening.receive();
        let bytes = dump(&mut random, &request);
        let dump = Dump::read(&request, &bytes).expect("an accepted region, whole");
        compare_pulls(group, &mut pulls, &opening, &dump);
        for packet in &dump.packets {
            let address = packet.content.get(1).copied();
            let answered = arrive(&opening, &bytes, &packet.content, address);
            let said = match &packet.said {
                Err(refusal) => *refusal as u32,
                // It was never sent.
                Ok(said) if !said.control.kind.announces() => 25,
                Ok(_) => 0,
            };
            group.input();
            arrivals.count(said);
            if said != answered {
                group.mismatch(|| {
                    let content = &packet.content;
                    let text = show(&request, &bytes).unwrap_or_else(|refused| refused);
                    format!("{content:02x?}: said is {said}, answered {answered}\n{text}")
                });
            }
        }
    }
    pulls.check_least(group, "a pull said to be refused", &[7, 8, 9]);
    let numbers = [0, 12, 13, 14, 16, 17, 20, 25];
    arrivals.check_least(group, "an arrival said to come to", &numbers);
}

/// A follower's, whose receive region is the looked-at one.
fn opening(random: &mut Random) -> Opening {
    loop {
        let numbers = good_numbers(random);
        let Numbers {
            local_blocks,
            remote_blocks,
            alignment,
        } = numbers;
        let swapped = Numbers {
            local_blocks: remote_blocks,
            remote_blocks: local_blocks,
            alignment,
        };
        let [_, _, least, _] = numbers.size_limits();
        let length = least + random.below(512) as i64;
        let [_, _, own_least, _] = swapped.size_limits();
        let receive = numbers.region_of(BEGIN + random.between(0, 300), length);
        let transmit = swapped.region_of(0x1000_0000, own_least + i64::from(alignment));
        let (Some(transmit), Some(receive)) = (transmit, receive) else {
            continue;
        };
        if length <= LONGEST && Place::new(transmit).is_some() && Place::new(receive).is_some() {
            return Opening {
                transmit_begin: transmit.begin,
                transmit_end: transmit.end,
                receive_begin: receive.begin,
                receive_end: receive.end,
                transmit_blocks: remote_blocks,
                receive_blocks: local_blocks,
                alignment,
            };
        }
    }
}

/// Bytes of a region: random ones or zeros, headers and names that can be
/// good, and a ring with control messages on it.
fn dump(random: &mut Random, request: &Request) -> Vec<u8> {
    let place = Place::new(*request).expect("an accepted region");
    let mut bytes = if random.one_in(2) {
        random.bytes(place.length())
    } else {
        vec![0; place.length()]
    };
    let blocks = place.blocks_at();
    for _ in 0..random.below(24) {
        let at = random.between(blocks as i64, place.length() as i64 - 4) as usize / 4 * 4;
        let number = random.below(80) as u32;
        if let Some(header) = bytes.get_mut(at..at + 4) {
            header.copy_from_slice(&number.to_le_bytes());
        }
    }
    let mut write = place.index(random);
    let ring = place.ring(&mut bytes);
    *ring.read_index = write.to_le_bytes();
    for _ in 0..random.below(9) {
        let content = control(random, request);
        match ring::push(request, write, &mut bytes, &content) {
            Ok(moved) => write = moved.own_index,
            Err(_) => break,
        }
    }
    if random.one_in(4) {
        let ring = place.ring(&mut bytes);
        *ring.write_index = match random.below(2) {
            0 => place.index(random),
            _ => place.bad_index(random),
        }
        .to_le_bytes();
    }
    bytes
}

/// Often a control message that makes sense.
fn control(random: &mut Random, request: &Request) -> Vec<u8> {
    let length = random.pick(&[3, 3, 3, 3, 3, 4, 2, 0, 13]);
    let mut content = random.bytes(length);
    let block = random.below(u64::from(request.local_blocks) + 2);
    let address = random.below(256);
    let last = 0xFC + random.below(4);
    let near = [random.below(5), random.pick(&[address, last]), block];
    for (byte, near) in content.iter_mut().zip(near) {
        *byte = near as u8;
    }
    content
}

/// The packets must be those that an end pulls from the shared read index on,
/// and what it drops behind them all that is left.
fn compare_pulls(group: &mut Group, tally: &mut Tally, opening: &Opening, dump: &Dump) {
    let mut bytes = dump.bytes.to_vec();
    let mut buffer = vec![0; bytes.len()];
    let (mut end, _) = End::open(opening);
    let mut read_index = Some(dump.read_index);
    let mut pull = || {
        let outcome = end.pull_call(|open| {
            open.read_index = read_index.take().unwrap_or(open.read_index);
            open.pull(&mut bytes, &mut buffer)
        });
        let values = outcome.answer.given.values();
        let [length, dropped] = [0, 1].map(|at| values.get(at).copied().unwrap_or(0) as usize);
        (outcome.number, dropped, buffer[..length].to_vec())
    };
    let mut compare = |said: (u32, usize, Vec<u8>)| {
        group.input();
        let pulled = pull();
        if pulled != said {
            group.mismatch(|| format!("said {said:02x?}, pulled {pulled:02x?}"));
        }
    };
    let mut left = dump.unread().unwrap_or(0);
    for Packet { content, .. } in &dump.packets {
        compare((0, 0, content.clone()));
        left -= packet_length(content.len());
    }
    let stop = dump.stop.refusal;
    tally.count(stop as u32);
    compare((stop as u32, left, Vec::new()));
    let next = match stop {
        Refusal::BrokenPacket => Refusal::Empty,
        other => other,
    };
    compare((next as u32, 0, Vec::new()));
}

/// The number of an arrival at a follower that has nothing but a bound endpoint
/// where data goes to.
fn arrive(opening: &Opening, bytes: &[u8], content: &[u8], address: Option<u8>) -> u32 {
    let (mut end, _) = End::open(opening);
    let Outcome { number, .. } = end.call(|open| {
        if content.first() == Some(&DATA) {
            open.endpoints.push(Endpoint {
                name: Name::arriving(b"x\0", 2)?,
                address,
                bound: true,
            });
        }
        open.arrival(bytes, content)?;
        Ok(Answer::default())
    });
    number
}

/// Any bytes as a region of any numbers: they can be shown, and take no more
/// lines and columns than there may be.
pub fn any_bytes(group: &mut Group, settings: &Settings) {
    let mut random = Random::new(settings.seed, 1 << 41);
    for _ in 0..settings.cases.div_ceil(CASES_PER_DUMP) {
        let (_, mixture) = random.pick(&MIXTURES);
        let request = mixture(&mut random);
        let whole = i64::from(request.end) - i64::from(request.begin);
        let bytes = if (0..=1 << 14).contains(&whole) && !random.one_in(8) {
            random.bytes(whole as usize)
        } else {
            let length = random.below(600) as usize;
            random.bytes(length)
        };
        check_bounds(group, &request, &bytes);

        let request = opening(&mut random).receive();
        check_bounds(group, &request, &dump(&mut random, &request));
    }
}

fn check_bounds(group: &mut Group, request: &Request, bytes: &[u8]) {
    let text = show(request, bytes).unwrap_or_else(|refused| refused);
    group.input();
    let columns = text.lines().map(|line| line.chars().count()).max();
    let lines = text.lines().count();
    if lines > MOST_LINES || columns.unwrap_or(0) > MOST_COLUMNS || !text.is_ascii() {
        group.mismatch(|| format!("{lines} lines, {columns:?} columns\n{text}"));
    }
}
