//! Enums whose cases can be listed.

/// An enum of plain cases, with the list of all of them as `ALL`.
macro_rules! listed {
    ($(#[$of_name:meta])* $name:ident { $($(#[$of_case:meta])* $case:ident),* $(,)? }) => {
        $(#[$of_name])*
        #[derive(Clone, Copy, Debug, PartialEq, Eq, PartialOrd, Ord, Hash)]
        pub enum $name {
            $($(#[$of_case])* $case),*
        }

        impl $name {
            pub const ALL: &'static [$name] = &[$($name::$case),*];
        }
    };
}
