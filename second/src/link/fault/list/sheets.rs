//! Faults in sheets and picks; their comparison has to find them.

macro_rules! sheets {
    ($next:ident $($given:tt)*) => { $next! { $($given)* SHEETS {
        // Paths.
        /// 27 comes after 28 and 29
        PathAfterSheets,
        /// 27 looks at the last tag, too
        LastTagChecked,
        /// 27: a path through a tag below 0x80 is 30
        LeafPassed,
        /// 27: a path of no tags gives the whole hand-set sheet
        EmptyPathIsSheet,
        /// 27: a path of five tags is refused
        FiveTagsRefused,
        /// 27: a path of six tags is looked up
        SixTagsAccepted,
        /// 27: a fifth tag from 0x80 is refused
        FifthGroupRefused,
        /// 27: the path's length is cut to a byte
        PathInByte,

        // Sheets, well-formed or not.
        /// 29 comes before 28
        IncomingJudgedFirst,
        /// 29: the incoming sheet is judged only where the hand-set one lacks the path
        IncomingWhenNeeded,
        /// 28: a malformed hand-set sheet counts as an empty one
        HandPassedOver,
        /// A sheet of 4,097 bytes is accepted
        LargerSheet,
        /// A sheet of 4,096 bytes is malformed
        LargestSheetRefused,
        /// A sheet's length is cut to two bytes
        SheetInTwoBytes,
        /// A sheet of no bytes is malformed
        EmptySheetRefused,
        /// Groups begin at tag 0x81
        GroupsFrom81,
        /// Tag 0 ends its list
        ZeroEndsList,
        /// Tag 0 is a byte of padding
        ZeroIsPadding,
        /// A length has seven bits
        LengthOf7Bits,
        /// One byte left over in a list is accepted
        LeftOverAccepted,
        /// A length may reach one byte past the end of its list
        OnePastEnd,
        /// A length is held against the end of the sheet, not of its list
        SheetEndsLists,
        /// Groups may lie five deep
        FiveDeep,
        /// Groups four deep are malformed
        FourDeepRefused,
        /// A group in a list of depth 4 is accepted if it is empty
        EmptyDeepAccepted,
        /// A list of depth 4 is not judged
        DeepUnread,
        /// Equal tags are accepted, and the first is found
        EqualTagsAccepted,
        /// Equal tags are accepted, and the last is found
        LastOfEqual,
        /// Equal tags are seen in neighbours alone
        NeighboursCompared,
        /// Equal tags in different lists are malformed
        TagsAcrossLists,
        /// Tags that differ by 0x80 count as equal
        TagsOf7Bits,

        // What is found, and the answer.
        /// The incoming sheet is looked at first
        IncomingPreferred,
        /// A group of the hand-set sheet hides the incoming one's fields
        GroupHides,
        /// An empty value of the hand-set sheet gives way to the incoming one's
        EmptyGivesWay,
        /// 30: a value of no bytes is not found
        EmptyNotFound,
        /// 30: a path that ends in a group is not found
        GroupNotFound,
        /// A path that ends in a group gets the group's first value
        GroupGivesFirst,
        /// Begin is where the field's tag is
        BeginAtTag,
        /// Begin is counted from the group's first byte, not the sheet's
        BeginInGroup,
        /// Begin is cut to a byte
        BeginInByte,
        /// Size counts the field's tag and length byte
        SizeWithHeader,
        /// 29: the hand-set sheet's part is answered
        RefusedKeepsPart,
    } } };
}
