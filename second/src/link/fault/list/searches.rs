//! Faults in the search for free blocks; its comparison has to find them.

macro_rules! searches {
    ($next:ident $($given:tt)*) => { $next! { $($given)* SEARCHES {
        // The same runs are found, in other turns.
        /// At a held block the search goes back, just behind the first block of the run
        SearchGoesBack,
        /// A held block that stops a run is looked at again
        HeldAgain,
        /// Each block is looked at twice
        LooksTwice,
        /// The block behind the run is looked at, too
        LooksBehindRun,
        /// The search ends where too few blocks are left
        StopsEarly,
        // Other runs are found, or none.
        /// One block behind the last is looked at
        OneTurnMore,
        /// The last block is not looked at
        LastUnseen,
        /// The block behind a held one is passed over
        NextPassedOver,
        /// A run that is one block too short will do
        RunOneShort,
        // What is asked, and what is told.
        /// The bits of a byte are taken from the highest on
        BitsReversed,
        /// The receive table is searched
        ReceiveSearched,
        /// The block count is cut to 16 bits
        BlocksIn16Bits,
        /// The number of blocks that are wanted is cut to 16 bits
        WantedIn16Bits,
        /// A search for no blocks is made
        NoneSearched,
        /// The turns are told in a byte
        TurnsInByte,
    } } };
}
