//! The machine's states and events, and the places of the table of requests.

listed! {
    /// The three states of a machine.
    State { Prohibited, Inactive, Active }
}

listed! {
    /// The eight events of a machine.
    Event {
        Activate,
        Deactivate,
        AskState,
        /// Data from the External Network.
        IngressData,
        /// Data from the CEN.
        EgressData,
        Allow,
        Prohibit,
        Expiry,
    }
}

listed! {
    /// Message types 1 to 3.
    Request { Activate, Deactivate, AskState }
}

listed! {
    /// How a request finds its machine: the columns of the table of requests.
    Standing {
        Inactive,
        /// Active, same level and side.
        Same,
        /// Active, other MP.
        Other,
    }
}

impl Request {
    /// The request of that message type; none for 0 and 4 to 255.
    pub fn of(message_type: u8) -> Option<Request> {
        match message_type {
            1 => Some(Request::Activate),
            2 => Some(Request::Deactivate),
            3 => Some(Request::AskState),
            0 | 4..=255 => None,
        }
    }

    pub fn event(self) -> Event {
        match self {
            Request::Activate => Event::Activate,
            Request::Deactivate => Event::Deactivate,
            Request::AskState => Event::AskState,
        }
    }
}
