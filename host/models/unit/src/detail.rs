//! Things a call can do that have no number of their own.

listed! {
    Detail {
        /// Step 1: a request met a prohibited flow and was dropped.
        ProhibitedDrop,
        /// Step 1: a MIP forwarded a multicast request.
        ProhibitedMulticast,
        /// Step 2: a request was too short for an answer.
        ShortDrop,
        /// The addresses of a looped frame were swapped.
        LoopSwapped,
        /// A looped frame had a group destination.
        LoopGroup,
        /// A looped frame was SOAM above the session's level.
        LoopSoamAbove,
        /// Data came from the other side of an active machine.
        OtherSideDrop,
        /// SOAM at the session's level passed an active machine.
        SoamAtLevel,
        /// SOAM below the session's level passed an active machine.
        SoamBelow,
        /// SOAM with an empty PDU passed an active machine.
        SoamEmpty,
        /// An unknown TLV was copied.
        TlvCopied,
        /// A type 37 TLV of another subtype was copied.
        SubtypeCopied,
        /// A timer stood in a request that is no Activate.
        TimerIgnored,
        /// Octets stood behind End.
        OctetsAfterEnd,
        /// A request had a version other than 0.
        LaterVersion,
        /// Octets stood between octet 12 and the first TLV.
        OctetsBeforeTlvs,
        /// A reply had the most octets that a reply can have.
        LongestReply,
        /// A reply reported an active session from the External side.
        FlagExternal,
        /// A reply reported an active session from the CEN.
        FlagCen,
        /// A refresh was served in a full table.
        RefreshInFullTable,
        /// A refresh with bad seconds left the session as it was.
        RefusedRefresh,
        /// A tick moved the reading past 2^32.
        ClockWrapped,
        /// A tick of 0 ms was accepted.
        TickOfNothing,
        /// A tick closed two sessions or more.
        SeveralExpired,
        /// A prohibition closed two sessions or more.
        SeveralProhibited,
        /// A restart closed an open session.
        RestartClosed,
        /// A restart dropped a notice.
        RestartDropped,
    }
}
