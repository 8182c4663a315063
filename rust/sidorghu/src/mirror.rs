//! Enums of this crate that have the variants of a proved one: so that they have this crate's documentation, traits and promises of compatibility.
//! Each conversion is a `match` without a wildcard, so a variant that is new there doesn't compile here.

/// An enum, and its value for each value of the proved one.
macro_rules! mirror {
    ($(#[$meta:meta])* pub enum $name:ident of $proved:ty { $($(#[$about:meta])* $variant:ident,)+ }) => {
        $(#[$meta])*
        #[derive(Clone, Copy, Debug, PartialEq, Eq, Hash)]
        pub enum $name { $($(#[$about])* $variant,)+ }

        impl $name {
            pub(crate) fn of(proved: $proved) -> $name {
                match proved { $(<$proved>::$variant => $name::$variant,)+ }
            }
        }
    };
}

/// The same for an error, with what it says of itself.
macro_rules! mirror_error {
    ($(#[$meta:meta])* pub enum $name:ident of $proved:ty { $($(#[$about:meta])* $variant:ident: $words:literal,)+ }) => {
        mirror! {
            $(#[$meta])*
            #[non_exhaustive]
            pub enum $name of $proved { $($(#[$about])* $variant,)+ }
        }
        said! { $name { $($variant: $words,)+ } }
    };
}

/// What the values of an error without a cause say of themselves.
macro_rules! said {
    ($name:ident { $($variant:ident: $words:literal,)+ }) => {
        impl core::fmt::Display for $name {
            fn fmt(&self, f: &mut core::fmt::Formatter<'_>) -> core::fmt::Result {
                f.write_str(match self { $($name::$variant => $words,)+ })
            }
        }

        impl core::error::Error for $name {}
    };
}

pub(crate) use {mirror, mirror_error, said};
