//! Enums whose cases are numbers of docs/FORMAT.md, each with the word that people read.

macro_rules! numbered {
    (
        $(#[$about:meta])*
        pub enum $name:ident { $($(#[$case_about:meta])* $case:ident = $number:literal $word:literal,)* }
    ) => {
        $(#[$about])*
        #[derive(Clone, Copy, Debug, PartialEq, Eq, Hash, PartialOrd, Ord)]
        pub enum $name {
            $($(#[$case_about])* $case = $number,)*
        }

        impl $name {
            /// Every case, by number.
            pub const ALL: &'static [$name] = &[$($name::$case,)*];

            /// The number of docs/FORMAT.md.
            pub fn number(self) -> u64 {
                self as u64
            }

            /// The case with this number; none where no case has it.
            pub fn from_number(number: u64) -> Option<$name> {
                match number {
                    $($number => Some($name::$case),)*
                    _ => None,
                }
            }

            /// The case in a word or two.
            pub fn word(self) -> &'static str {
                match self {
                    $($name::$case => $word,)*
                }
            }
        }

        impl std::fmt::Display for $name {
            fn fmt(&self, out: &mut std::fmt::Formatter<'_>) -> std::fmt::Result {
                out.pad(self.word())
            }
        }
    };
}

pub(crate) use numbered;
