//! What can be wrong with a state or its image.

use crate::{plan_faults, session_faults, State};

/// A fault, and whether a state has it.
pub(crate) type Check = (Fault, fn(&State) -> bool);

/// One rule of validity broken. The last four are of octets only: a state can't have them.
#[derive(Clone, Copy, Debug, PartialEq, Eq)]
pub enum Fault {
    /// The plan has no port.
    NoPort,
    /// A port's number is not 1 to 8.
    PortNumber,
    /// Two ports have one number.
    SamePortNumber,
    /// A port's address is a group address.
    GroupAddress,
    /// A port's address is zero.
    ZeroAddress,
    /// Two ports have one address.
    SameAddress,
    /// A flow's number is not 1 to 32.
    FlowNumber,
    /// Two flows have one number.
    SameFlowNumber,
    /// A flow's port is not in the plan.
    UnnamedPort,
    /// A flow is of a kind that its port can't have.
    WrongKind,
    /// A VID is out of range for its kind.
    WrongVid,
    /// Two flows of one port have one frame set.
    SameSet,
    /// There are more than 32 MPs.
    ThirtyThirdMp,
    /// A flow is allowed that is not in the plan.
    UnnamedAllowed,
    /// There are more than 16 sessions.
    SeventeenthSession,
    /// Two sessions have one key.
    EqualKeys,
    /// A session's flow is not in the plan.
    UnnamedFlow,
    /// A session's source is a group address.
    GroupSource,
    /// A session's tag is not one of its flow's set.
    WrongTag,
    /// A session's flow has no MP at its level.
    GoneMp,
    /// The MP at a session's level does not face its side.
    WrongSide,
    /// An open session's flow is prohibited.
    ProhibitedSession,
    /// An open session has no time left.
    NoTime,
    /// An open session has more than 86,400,000 ms left.
    LongTime,
    /// A session is owed a notice that has neither code 8 nor code 9.
    UnknownNotice,
    /// A session that is owed a notice has time left.
    NoticeTime,
    /// The flow of a code 8 notice is prohibited.
    ProhibitedNotice,
    /// The flow of a code 9 notice is allowed.
    AllowedNotice,
    /// A place is not that of its flow's row.
    WrongPlace,
    /// What says whether a flow is allowed is neither 0 nor 1.
    AllowedOctet,
    /// Rows do not ascend, or leave a gap, or an octet in one does not belong to what the rest of it says.
    WrongRow,
    /// An octet without a meaning is not 0.
    UnusedOctet,
}

impl Fault {
    pub fn all() -> impl Iterator<Item = Fault> {
        let of_octets = [Fault::WrongPlace, Fault::AllowedOctet, Fault::WrongRow, Fault::UnusedOctet];
        let of_plan = plan_faults::CHECKS.iter().map(|check| check.0);
        let of_state = session_faults::CHECKS.iter().map(|check| check.0);
        let of_sessions = session_faults::SESSION_CHECKS.iter().map(|check| check.0);
        of_plan.chain(of_state).chain(of_sessions).chain(of_octets)
    }
}
