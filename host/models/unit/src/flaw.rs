//! What can be wrong with a plan, in finer parts than its reasons.

listed! {
    Flaw {
        /// Reason 1: the last line is not ended by LF.
        NoLineEnd,
        /// Reason 1: the line does not begin with a record's word.
        NoRecord,
        /// Reason 1: the record has fields too many or too few.
        FieldCount,
        /// Reason 1: a field is none of the words listed for it.
        UnlistedWord,
        /// Reason 1: a field is no decimal number, or one with a leading zero.
        NoNumber,
        /// Reason 1: a field is not 12 lower-case hex digits.
        NoAddress,
        /// Reason 2, a port's own number.
        PortNumber,
        /// Reason 2.
        GroupAddress,
        /// Reason 2.
        ZeroAddress,
        /// Reason 2, a flow's own number.
        FlowNumber,
        /// Reason 2, the port in a flow's record.
        ReferredPort,
        /// Reason 2, the flow in an MP's record.
        ReferredFlow,
        /// Reason 2, a VID of `c` or `s`.
        TaggedVid,
        /// Reason 2, a VID of `u`.
        UntaggedVid,
        /// Reason 2, a kind that the port can't have.
        WrongKind,
        /// Reason 2, a level above 7.
        Level,
        /// Reason 3.
        UnnamedPort,
        /// Reason 3.
        UnnamedFlow,
        /// Reason 4.
        SamePortNumber,
        /// Reason 4.
        SameAddress,
        /// Reason 4.
        SameFlowNumber,
        /// Reason 4.
        SameSet,
        /// Reason 4.
        SameLevel,
        /// Reason 5.
        LongText,
        /// Reason 6.
        NoPort,
        /// Reason 7.
        ThirtyThirdMp,
    }
}

impl Flaw {
    pub fn reason(self) -> u8 {
        use Flaw::*;
        match self {
            NoLineEnd | NoRecord | FieldCount | UnlistedWord | NoNumber | NoAddress => 1,
            PortNumber | GroupAddress | ZeroAddress | FlowNumber | ReferredPort | ReferredFlow => 2,
            TaggedVid | UntaggedVid | WrongKind | Level => 2,
            UnnamedPort | UnnamedFlow => 3,
            SamePortNumber | SameAddress | SameFlowNumber | SameSet | SameLevel => 4,
            LongText => 5,
            NoPort => 6,
            ThirtyThirdMp => 7,
        }
    }
}
