//! Faults in plain units; their comparison has to find them.

macro_rules! units {
    ($next:ident $($given:tt)*) => { $next! { $($given)* UNITS {
        // Opening a unit, and its regions.
        /// The receive region of a unit is checked before its transmit region
        UnitReceiveFirst,
        /// 5 comes before the checks of the receive region
        OverlapBeforeReceive,
        /// 3 comes before 1
        BoundsBeforeAlignment,
        /// 1: any multiple of 4 up to 256 is an alignment
        AnyMultipleOf4,
        /// 2: a unit is refused because it has no blocks
        BlocksCounted,
        /// 3: a region of 1,048,576 bytes is refused
        LargestRefused,
        /// 3: an empty region is 4
        EmptyIsSmall,
        /// 4: an aligned size of A + 4 + 16 is accepted
        LeastOf16,
        /// 4: an aligned size under A + 4 + 28 is refused
        LeastOf28,
        /// 4: a unit's region must have space for a block
        BlockWanted,
        /// 5: a unit opens regions that share bytes
        OverlapUnseen,
        /// 5: only a receive region that begins inside the transmit region is seen
        OneSidedOverlap,
        /// 5: a unit's rounded regions are compared, not the raw ones
        UnitRoundedOverlap,
        /// 5: a unit's touching regions are refused
        UnitTouchingRefused,
        /// The ring begins at the raw begin
        BeginUnrounded,
        /// End is not rounded down
        EndUnrounded,
        /// Begin and end are rounded to 4, not to A
        RoundedTo4,
        /// The read index is not padded to A
        ReadIndexUnpadded,
        /// The write index is padded to A, too
        WriteIndexPadded,
        /// The data length counts the header, as far as the raw region goes
        HeaderCounted,

        // Calls of a unit.
        /// Start pushes its content at 0, and sets no index before
        StartIsPush,
        /// 7 comes before 11 at push
        IndexBeforeLength,
        /// 6: a slice that is longer than the region is accepted
        LongerLent,
        /// 6: an own index out of rule is 7 at a receive
        OwnIndexIs7,
        /// A refused push answers the own index 0
        RefusedIndexZero,
        /// 8: a packet without content counts as an empty ring
        NoContentIsEmpty,
        /// 9: a receive drops nothing
        ReceiveDropsNothing,
        /// A start packet is received with the length 0
        StartIsEmpty,
        /// The new read index is not written out by a receive
        IndexUnwritten,
        /// A receive copies the padding, too, where the buffer takes it
        PaddingCopied,
        /// A receive clears the rest of the buffer
        BufferCleared,

        // Buffers that are too short.
        /// 26 comes before 8
        ShortBeforeEmpty,
        /// 26 comes before 9
        ShortBeforeBroken,
        /// 26: a receive cuts the content to the buffer, as a pull does
        ContentCut,
        /// 26: a buffer just as long as the content is refused
        ExactIsShort,
        /// 26: the padded content is counted
        PaddedIsShort,
        /// 26: the packet with its own 4 bytes is counted
        PacketIsShort,
        /// 26: the buffer's length is cut to two bytes
        BufferInTwoBytes,
        /// 26: what fits is copied
        ShortCopied,
        /// 26: the content's length is given
        ShortReported,
        /// 26: the packet is taken off the ring
        ShortMovesOn,
        /// 26: the index behind the packet is written out, but not kept
        ShortWritesIndex,
        /// 26: all unread bytes are dropped
        ShortDrops,
    } } };
}
