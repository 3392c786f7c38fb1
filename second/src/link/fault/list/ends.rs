//! Faults in ends; the traffic has to find them.

macro_rules! ends {
    ($next:ident $($given:tt)*) => { $next! { $($given)* ENDS {
        // The slips that were seen.
        /// The header in shared memory says what a sent message takes
        HeaderDecides,
        /// A count of 256 blocks is kept in a byte
        CountInByte,
        /// K + 4 is computed in 32 bits
        NarrowSize,
        /// The size is read again for a view
        SizeReadAgain,
        /// A release that names the middle of a run frees it
        MiddleReleased,
        /// The ring is full only when the used bytes equal the data length
        FullAtLength,

        // Order of checks.
        /// 6 comes after 12 and 13
        WrongRegionLast,
        /// 15 comes before 14
        BoundBeforeAddress,
        /// 16 comes before 15 when data arrives
        BlockBeforeBound,
        /// 19 comes after 14
        RoleAfterAddress,
        /// 16 comes before 14 when a binding is released
        BlockBeforeAddress,
        /// 22 comes before 21 when a binding arrives
        PlaceBeforeTaken,
        /// 22 comes before 21 at register
        PlaceBeforeName,
        /// 15 comes before 25 at send
        BoundBeforeStart,
        /// 23 comes before 15 at send
        FitBeforeBound,
        /// 10 comes before 25 at send
        FullBeforeReserved,
        /// 10 comes before 15 at send
        FullBeforeBound,
        /// 10 comes before 23 at send
        FullBeforeFit,
        /// 10 comes before 20 at an initiator's register
        FullBeforeName,
        /// 10 comes before 23 and 24 at register
        FullBeforeRoom,
        /// 10 comes before 21 and 22 at a follower's register
        FullBeforeTaken,
        /// 10 comes before 25 at done
        FullBeforeHeld,
        /// 7 comes before 25 at send
        IndexBeforeReserved,
        /// 7 comes before 20 at an initiator's register
        IndexBeforeName,
        /// 7 comes before 25 at done
        IndexBeforeHeld,
        /// 10 comes before 7 at send, register and done
        FullBeforeIndex,
        /// 25 comes before 6 at done
        HeldBeforeLent,

        // Opening.
        /// The receive region is checked before the transmit region
        ReceiveFirst,
        /// 5: the rounded regions are compared, not the raw ones
        RoundedOverlap,
        /// 5: touching regions are refused
        TouchingRefused,
        /// An accepted opening gives a run
        OpeningGivesRun,

        // Ring.
        /// 7: a partner's index need not be a multiple of 4
        IndexOffUnit,
        /// 7: a partner's index may equal the data length
        IndexAtLength,
        /// 8: an empty ring is not told from a broken packet
        EmptyIsBroken,
        /// 9: the packet's own 4 bytes are not counted
        PacketHeaderUncounted,
        /// 10: the padding is not counted
        PaddingUncounted,
        /// The reader wants zeros in the reserved bytes
        ReservedBytesRead,
        /// The own read index is read back from memory
        OwnIndexRead,
        /// Pull reports the copied bytes, not the packet's length
        CopiedReported,
        /// Padding is not written
        PaddingLeft,
        /// Start goes on where the last push ended
        StartGoesOn,
        /// Start sets the own read index to 0
        StartReadsAgain,
        /// A refused pull gives nothing, not the length 0
        PullGivesNothing,

        // Broken packets.
        /// 9: nothing is dropped
        NothingDropped,
        /// 9: the read index moves on by the length that the packet claims
        BrokenPacketSkipped,
        /// 9: only the packet's own 4 bytes are dropped
        BrokenHeaderSkipped,
        /// 9: pull goes on where the next packet could begin
        NextPacketSought,
        /// 9: the new read index is not written out
        DropUnwritten,
        /// 9: the new read index is written out, but not kept
        DropKeepsOwnIndex,
        /// 9: both indexes are set to 0
        DropClearsIndexes,
        /// 9: content is copied
        BrokenContentCopied,
        /// 9: the answer says that 0 bytes were dropped
        DroppedUnsaid,
        /// 9: the dropped bytes are counted without the wrap
        DroppedUnwrapped,
        /// 9: the dropped bytes are given as the length
        DroppedIsLength,
        /// 7: what is unread is dropped, too
        BadIndexDrops,
        /// 6, 7 and 8: a pull says that 0 bytes were dropped
        EveryPullDrops,

        // Control messages.
        /// 12: a control message of two bytes is accepted
        TwoBytesAccepted,
        /// 12: a control message of more than three bytes is refused
        LongControlRefused,
        /// 13: only two bits of the kind are looked at
        KindOfTwoBits,
        /// 14: address 0xFE is accepted
        AddressFeAccepted,
        /// 15: a waiting endpoint counts as bound at send
        WaitingSends,
        /// 15: an address at send is cut to a byte
        AddressInByte,
        /// 16: a release may name the block behind the last one
        BlockAtCount,
        /// 17: a message may run one byte past the last block
        OnePastLastBlock,
        /// 18: only the first block is looked at
        FirstBlockLookedAt,
        /// 18: a stored binding holds no blocks
        StoredHoldsNothing,
        /// 25: kind 1 frees a reservation
        ReservationReleased,
        /// 25: kind 1 frees a binding
        BindingReleasedAsData,
        /// 25: kind 3 frees a binding whatever the address
        AnyAddressReleased,
        /// 25: kind 3 binds the address even if it is refused
        RefusedReleaseBinds,
        /// Kind 0 gives control bytes, not a delivery
        DataGivesControl,

        // Binding.
        /// 19: an initiator takes a binding
        InitiatorTakesBinding,
        /// 20: a name of 32 bytes is registered
        LongNameAccepted,
        /// 20: a name with a zero in it is registered
        ZeroInNameAccepted,
        /// 20: an arriving name without a zero is accepted
        UnendedNameAccepted,
        /// 20: an arriving name of no bytes is accepted
        EmptyNameAccepted,
        /// 20: bytes behind an arriving name are refused
        BytesBehindNameRefused,
        /// 21: a stored binding's address is not looked at
        StoredAddressFree,
        /// 21: a stored binding's name is not looked at
        StoredNameFree,
        /// 21: a bound endpoint's address is not looked at
        BoundAddressFree,
        /// 21: a bound endpoint's name is not looked at by an arrival
        BoundNameFree,
        /// 21: a waiting endpoint's name can be registered again
        WaitingNameFree,
        /// 22: a ninth endpoint is registered
        NinthEndpoint,
        /// 22: a ninth binding is stored
        NinthStored,
        /// A binding that binds at once holds its blocks
        BoundHolds,
        /// Register leaves the blocks of the binding it takes in use
        TakenBindingHolds,
        /// A register that waits gives control bytes
        WaitingGivesControl,
        /// Kind 2 of more than three bytes gives a delivery, not control bytes
        LongBoundGivesDelivery,

        // Data for a waiting endpoint, and kind 3 after it.
        /// 15: data for an initiator's waiting endpoint is refused
        EarlyDataRefused,
        /// 15: address 0 reaches a follower's waiting endpoint, and binds it
        ZeroReachesWaiting,
        /// 15: any address reaches a follower's waiting endpoint, and binds it
        AnyReachesWaiting,
        /// 16: data that is refused binds the endpoint
        BadBlockBinds,
        /// 17: data that is refused binds the endpoint
        PastLastBinds,
        /// 18: data that is refused binds the endpoint
        HeldBlockBinds,
        /// Data is delivered, but leaves the endpoint waiting
        DataLeavesWaiting,
        /// Data that binds is not delivered
        EarlyDataSwallowed,
        /// Data binds the first endpoint that waits, whatever the address
        OtherWaitingBound,
        /// Data binds all endpoints that wait
        AllWaitingBound,
        /// Data that binds takes the endpoint's name away
        DataTakesName,
        /// Data that binds gives the endpoint its block number as address
        BlockIsAddress,
        /// Data that binds frees the blocks of the binding
        DataFreesBinding,
        /// 25: kind 3 is refused where data has bound the endpoint
        LateReleaseRefused,
        /// 25: a second kind 3 is accepted
        SecondReleaseTaken,
        /// Kind 3 after data leaves the blocks of the binding in use
        LateReleaseHolds,
        /// Kind 3 after data lets the endpoint wait again
        LateReleaseUnbinds,

        // Blocks.
        /// 25: a start is cut to a byte
        StartInByte,
        /// The size of a received message is kept in two bytes
        SizeInTwoBytes,
        /// 23: send does not compare K + 4 with the reserved bytes
        SendUnlimited,
        /// 23: a message longer than all blocks is 24
        CannotFitIsNoRoom,
        /// 24: reserve counts K bytes, not K + 4
        HeaderUnreserved,
        /// Reserve takes the highest run that is long enough
        HighestGap,
        /// Send keeps the blocks beyond the need
        SendKeepsAll,
        /// A send that is refused by 23 has written the header
        RefusedSendWrites,
        /// A view begins at the header
        ViewFromHeader,
        /// 25: a sent message has a room
        RoomOfSent,
        /// A refused room writes a byte
        RefusedRoomWrites,
        /// A room writes the byte before its first one
        RoomWritesBefore,
        /// A room is cleared when it is lent
        RoomCleared,
        /// 25: a sent message can be dropped
        DropOfSent,
        /// 25: a stored binding can be done with
        DoneOfStored,
        /// Done gives a delivery, not control bytes
        DoneGivesDelivery,

        // Send, register and done where the ring refuses.
        /// 10: a send frees the blocks beyond the need
        FullTrims,
        /// 10: a message counts as sent
        FullSends,
        /// 7: a message counts as sent
        BadIndexSends,
        /// 7 and 10: a send has written the header
        HeaderBeforeRing,
        /// 10: an endpoint is registered
        FullRegisters,
        /// 7: an endpoint is registered
        BadIndexRegisters,
        /// 10: a register takes the blocks of its binding
        FullHoldsBinding,
        /// 7 and 10: a register has written its binding
        BindingBeforeRing,
        /// 10: a register forgets the stored binding
        FullForgetsStored,
        /// 7: a register forgets the stored binding
        BadIndexForgetsStored,
        /// 10: a done forgets the message
        FullForgets,
        /// 7: a done forgets the message
        BadIndexForgets,
        /// 7 and 10: a send gives its control bytes all the same
        RefusedSendGives,
        /// 7 and 10: a register that waits looks at the ring
        WaitingLooks,
        /// 7: send, register and done do not look at the partner's index
        IndexUnseen,
        /// 10: send, register and done push over what is unread
        FullUnseen,

        // What send, register and done push.
        /// Send pushes nothing
        SendUnpushed,
        /// An initiator's register pushes nothing
        BindingUnpushed,
        /// A follower's register pushes nothing for a stored binding
        TakingUnpushed,
        /// Done pushes nothing
        DoneUnpushed,
        /// Send, register and done push twice
        ToldTwice,
        /// Send, register and done write their new index out, and do not keep it
        ToldKeepsOwnIndex,
        /// Send, register and done do not write their new index out
        ToldUnwritten,
        /// Done pushes address 1, and gives address 0
        DonePushesOne,
        /// 6: done takes any transmit slice, and pushes beside a wrong one
        DoneLentAnything,
        /// A register that waits pushes control bytes
        WaitingPushes,
        /// The reply to an arriving binding is pushed, too
        ReplyPushed,

        // Scripts.
        /// A body longer than its kind has is accepted
        LongBodyAccepted,
        /// A record cut in its body is accepted
        CutRecordAccepted,
        /// A write that runs past its slice writes nothing
        WriteAllOrNothing,
    } } };
}
