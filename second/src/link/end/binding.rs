//! Endpoints: their names, and how both ends agree on their addresses.

use super::control::Control;
use super::messages::{Incoming, Outgoing};
use super::Open;
use crate::link::fault::{planted, unless, Fault};
use crate::link::refusal::{refuse, Refusal};

/// The most endpoints, and the most stored bindings beside them.
pub const MOST_ENDPOINTS: usize = 8;

/// The most bytes of a name, without the zero behind it.
pub const LONGEST_NAME: usize = 31;

/// An endpoint's name; no byte of it is zero.
#[derive(PartialEq, Eq)]
pub struct Name(Vec<u8>);

impl Name {
    /// A name that is handed over.
    pub fn registered(bytes: &[u8]) -> Result<Self, Refusal> {
        let longest = unless(Fault::LongNameAccepted, LONGEST_NAME, LONGEST_NAME + 1);
        let good_length = (1..=longest).contains(&bytes.len());
        let no_zero = !bytes.contains(&0) || planted(Fault::ZeroInNameAccepted);
        if good_length && no_zero {
            Ok(Name(bytes.to_vec()))
        } else {
            Err(Refusal::BadName)
        }
    }

    /// The name in a binding message of `k` bytes. What follows its zero is
    /// ignored, and a zero behind the first 32 bytes comes too late.
    pub fn arriving(content: &[u8], k: u32) -> Result<Self, Refusal> {
        let window = (k as usize).min(LONGEST_NAME + 1).min(content.len());
        let window = &content[..window];
        let length = match window.iter().position(|&byte| byte == 0) {
            Some(length) => length,
            None if planted(Fault::UnendedNameAccepted) => window.len(),
            None => return Err(Refusal::BadName),
        };
        if length == 0 && !planted(Fault::EmptyNameAccepted) {
            return Err(Refusal::BadName);
        }
        if planted(Fault::BytesBehindNameRefused) && k as usize > length + 1 {
            return Err(Refusal::BadName);
        }
        Ok(Name(window[..length].to_vec()))
    }

    /// The content of a binding message.
    pub fn zero_ended(&self) -> Vec<u8> {
        [&self.0[..], &[0]].concat()
    }

    pub fn bytes(&self) -> &[u8] {
        &self.0
    }
}

/// A registered endpoint.
pub struct Endpoint {
    pub name: Name,
    /// A follower's has none as long as it waits.
    pub address: Option<u8>,
    pub bound: bool,
}

impl Endpoint {
    pub fn bind(&mut self, address: u8) {
        self.address = Some(address);
        self.bound = true;
    }

    fn awaits(&self, name: &Name) -> bool {
        !self.bound && self.name == *name
    }
}

impl Open {
    /// The partner has taken the binding message of this address.
    pub fn confirm(&mut self, address: u8) {
        for endpoint in &mut self.endpoints {
            if endpoint.address == Some(address) {
                let wrong = !endpoint.bound;
                endpoint.bound = unless(Fault::LateReleaseUnbinds, true, wrong);
            }
        }
    }

    /// The place of the endpoint that data of this address is for. An initiator's
    /// has its address from the beginning, a follower's as soon as it is bound.
    pub fn reached(&self, address: u8) -> Result<usize, Refusal> {
        let mut endpoints = self.endpoints.iter();
        let reached = endpoints.position(|endpoint| match endpoint.address {
            Some(own) => own == address && (endpoint.bound || !planted(Fault::EarlyDataRefused)),
            None => {
                let zero = address == 0 && planted(Fault::ZeroReachesWaiting);
                zero || planted(Fault::AnyReachesWaiting)
            }
        });
        reached.ok_or(Refusal::NotBound)
    }

    /// Binds the endpoint that data has come for, at a place where one waits.
    pub fn bind_by_data(&mut self, reached: usize, control: Control) {
        let mut endpoints = self.endpoints.iter();
        let first = endpoints.position(|endpoint| !endpoint.bound);
        let wrong = first.unwrap_or(reached);
        let endpoint = &mut self.endpoints[unless(Fault::OtherWaitingBound, reached, wrong)];
        let address = endpoint.address.unwrap_or(control.address);
        endpoint.bind(unless(Fault::BlockIsAddress, address, control.block));
        if planted(Fault::DataTakesName) {
            endpoint.name = Name(Vec::new());
        }
        if planted(Fault::AllWaitingBound) {
            for endpoint in &mut self.endpoints {
                endpoint.bound = true;
            }
        }
        if planted(Fault::DataFreesBinding) {
            let sent = |state: &Outgoing| match state {
                Outgoing::Binding { address: sent } => *sent == address,
                Outgoing::Data | Outgoing::Reserved => false,
            };
            for start in self.outgoing.starts(sent) {
                self.outgoing.release(start);
            }
        }
    }

    /// Refuses an address that no bound endpoint has; of 32 bits, so none above
    /// the last one can be taken for a lower one.
    pub fn check_bound(&self, address: u32) -> Result<(), Refusal> {
        let address = unless(Fault::AddressInByte, address, address & 0xFF);
        let bound = self.endpoints.iter().any(|endpoint| {
            endpoint.address.map(u32::from) == Some(address)
                && (endpoint.bound || planted(Fault::WaitingSends))
        });
        refuse(!bound, Refusal::NotBound)
    }

    /// Refuses a binding that an initiator is sent.
    pub fn check_role(&self) -> Result<(), Refusal> {
        let refused = self.initiator && !planted(Fault::InitiatorTakesBinding);
        refuse(refused, Refusal::NotFollower)
    }

    /// Refuses a name or address of a bound endpoint or a stored binding.
    pub fn check_taken(&self, name: &Name, address: u8) -> Result<(), Refusal> {
        let bound = self.endpoints.iter().filter(|endpoint| endpoint.bound);
        let mut bound = bound.map(|endpoint| {
            let same_name = endpoint.name == *name && !planted(Fault::BoundNameFree);
            let same_address = endpoint.address == Some(address);
            same_name || same_address && !planted(Fault::BoundAddressFree)
        });
        let mut stored = self.incoming.iter().map(|run| match &run.state {
            Incoming::Stored {
                name: stored,
                address: given,
            } => {
                let same_name = stored == name && !planted(Fault::StoredNameFree);
                same_name || *given == address && !planted(Fault::StoredAddressFree)
            }
            Incoming::Data { .. } => false,
        });
        let taken = bound.any(|taken| taken) || stored.any(|taken| taken);
        refuse(taken, Refusal::NameTaken)
    }

    /// The endpoint that waits for a binding of that name.
    pub fn waiting(&mut self, name: &Name) -> Option<&mut Endpoint> {
        let mut endpoints = self.endpoints.iter_mut();
        endpoints.find(|endpoint| endpoint.awaits(name))
    }

    /// Refuses to store one more binding than there may be; one that an
    /// endpoint waits for is not stored.
    pub fn check_stored(&self, name: &Name) -> Result<(), Refusal> {
        let awaited = self.endpoints.iter().any(|endpoint| endpoint.awaits(name));
        let most = unless(Fault::NinthStored, MOST_ENDPOINTS, MOST_ENDPOINTS + 1);
        let stored = self
            .incoming
            .iter()
            .filter(|run| matches!(run.state, Incoming::Stored { .. }));
        refuse(!awaited && stored.count() >= most, Refusal::NoPlace)
    }
}
