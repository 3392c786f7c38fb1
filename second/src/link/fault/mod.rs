//! Faults that can be planted in the second implementation, to see that the
//! comparison finds them.
//!
//! One at a time is planted for the whole program, so the code that has it in
//! it asks at one place and nobody hands it on.

use std::sync::atomic::{AtomicU16, Ordering};

/// Writes the enum, its members by what they are planted in, and their names and
/// descriptions once more as text.
macro_rules! faults {
    ($($group:ident { $($(#[doc = $line:literal])+ $name:ident,)+ })+) => {
        #[derive(Clone, Copy, PartialEq, Eq)]
        #[repr(u16)]
        pub enum Fault {
            $($($(#[doc = $line])+ $name,)+)+
        }

        impl Fault {
            $(pub const $group: &[Fault] = &[$(Fault::$name),+];)+

            pub fn all() -> impl Iterator<Item = Fault> {
                [$(Self::$group),+].into_iter().flatten().copied()
            }

            pub fn name(self) -> &'static str {
                match self {
                    $($(Fault::$name => stringify!($name),)+)+
                }
            }

            /// What is wrong with it.
            pub fn wrong(self) -> &'static str {
                match self {
                    $($(Fault::$name => concat!($($line),+).trim_start(),)+)+
                }
            }
        }
    };
}

mod list;

pub use list::Fault;

/// One more than the planted fault; 0 is none.
static PLANTED: AtomicU16 = AtomicU16::new(0);

/// True while this fault is planted.
pub fn planted(fault: Fault) -> bool {
    PLANTED.load(Ordering::Relaxed) == fault as u16 + 1
}

/// The right value, unless the fault is planted.
pub fn unless<T>(fault: Fault, right: T, wrong: T) -> T {
    if planted(fault) {
        wrong
    } else {
        right
    }
}

/// Makes two checks, the first one first unless the fault is planted.
pub fn in_order<E: Copy>(
    fault: Fault,
    first: Result<(), E>,
    second: Result<(), E>,
) -> Result<(), E> {
    unless(fault, first.and(second), second.and(first))
}

/// Runs something with the fault planted.
pub fn with<R>(fault: Fault, run: impl FnOnce() -> R) -> R {
    PLANTED.store(fault as u16 + 1, Ordering::Relaxed);
    let result = run();
    PLANTED.store(0, Ordering::Relaxed);
    result
}
