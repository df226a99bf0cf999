//! Makes the enum of wrong behaviours from listings in several files, part by part.

/// Lists the variants once, for the enum, for `Fault::ALL` and for its parts.
macro_rules! faults {
    ($([$part:ident] $($(#[$text:meta])* $name:ident,)*)*) => {
        /// One wrong behaviour, or none.
        #[derive(Clone, Copy, Debug, Default, PartialEq, Eq)]
        pub enum Fault {
            /// The plain specification.
            #[default]
            None,
            $($($(#[$text])* $name,)*)*
        }

        impl Fault {
            /// Every wrong behaviour, without `None`.
            pub const ALL: &'static [Fault] = &[$($(Fault::$name,)*)*];
            $(pub const $part: &'static [Fault] = &[$(Fault::$name,)*];)*
        }
    };
}

/// Joins listings. Each is a macro of its own file, which adds its parts to those
/// listed so far and hands them on to the next.
macro_rules! joined {
    ([] { $($listed:tt)* }) => { faults! { $($listed)* } };
    ([$first:ident $($rest:ident)*] { $($listed:tt)* }) => {
        $first! { [$($rest)*] { $($listed)* } }
    };
}
