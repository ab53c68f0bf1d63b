//! Macros for enums whose variants are numbers of the C interface.

/// An enum, each variant with its number, the text that it is shown by, and its doc.
macro_rules! coded {
    ($(#[$about:meta])* $name:ident { $($(#[$doc:meta])* $variant:ident = $number:ident, $text:literal;)* }) => {
        $(#[$about])*
        #[derive(Clone, Copy, Debug, PartialEq, Eq, Hash)]
        pub enum $name {
            $($(#[$doc])* $variant,)*
        }

        impl $name {
            /// The name of the variant, as the project's documents spell it.
            pub fn name(self) -> &'static str {
                match self {
                    $(Self::$variant => stringify!($variant),)*
                }
            }

            // What this number means.
            pub(crate) fn of(number: u32) -> Option<Self> {
                match number {
                    $($crate::raw::$number => Some(Self::$variant),)*
                    _ => None,
                }
            }
        }

        impl std::fmt::Display for $name {
            fn fmt(&self, formatter: &mut std::fmt::Formatter<'_>) -> std::fmt::Result {
                formatter.pad(match self {
                    $(Self::$variant => $text,)*
                })
            }
        }
    };
}

/// An enum of faults, each variant with its status and the text that says what is wrong, which is its doc, too.
macro_rules! faults {
    ($(#[$about:meta])* $name:ident { $($variant:ident = $number:ident, $text:literal;)* }) => {
        $crate::coded::coded! {
            $(#[$about])*
            $name { $(#[doc = $text] $variant = $number, $text;)* }
        }

        impl std::error::Error for $name {}
    };
}

/// An enum of errors, each variant with the faults that it holds. They tell a call's statuses apart.
macro_rules! errors {
    ($(#[$about:meta])* $name:ident { $($(#[$doc:meta])* $variant:ident: $fault:ident;)* }) => {
        $(#[$about])*
        #[derive(Clone, Copy, Debug, PartialEq, Eq, Hash)]
        pub enum $name {
            $($(#[$doc])* $variant($fault),)*
        }

        impl $name {
            // What this status of a call means.
            pub(crate) fn told(status: $crate::raw::bully_status) -> Self {
                None$(.or_else(|| $fault::of(status).map(Self::$variant)))*
                    .unwrap_or_else(|| $crate::calls::unexpected(status))
            }
        }

        $(impl From<$fault> for $name {
            fn from(fault: $fault) -> Self {
                Self::$variant(fault)
            }
        })*

        impl std::fmt::Display for $name {
            fn fmt(&self, formatter: &mut std::fmt::Formatter<'_>) -> std::fmt::Result {
                match self {
                    $(Self::$variant(fault) => std::fmt::Display::fmt(fault, formatter),)*
                }
            }
        }

        impl std::error::Error for $name {}
    };
}

pub(crate) use {coded, errors, faults};
