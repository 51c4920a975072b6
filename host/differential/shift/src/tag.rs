//! What a log holds that it should be counted for.

/// The name of a kind of something.
pub(crate) type Name = &'static str;

#[derive(Clone, Copy)]
pub(crate) enum Tag {
    /// Of the log as a whole.
    Log(Name),
    /// Of the line of that number, which is to print as `bad`.
    Bad(usize, Name),
    /// Of the line of that number, which is to print as something else.
    Read(usize, Name),
}
