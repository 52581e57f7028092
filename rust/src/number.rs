//! Fields of a record: numbers of 64 bits in memory, as the static library takes them, with the types of
//! what they hold.

/// A type that a field of a record has.
pub(crate) trait Number: Copy {
    /// Of a number that the type holds; another one is cut.
    fn of(number: u64) -> Self;
    fn number(self) -> u64;
}

impl Number for bool {
    fn of(number: u64) -> bool {
        number != 0
    }

    fn number(self) -> u64 {
        self.into()
    }
}

macro_rules! integers {
    ($($integer:ident)*) => {
        $(impl Number for $integer {
            fn of(number: u64) -> $integer {
                number as $integer
            }

            fn number(self) -> u64 {
                self.into()
            }
        })*
    };
}

integers! { u8 u16 u32 u64 }

/// A getter and a setter for each number of a struct, which `fields` and `fields_mut` reach, and what `Debug` shows.
macro_rules! accessors {
    ($struct:ident { $($(#[$doc:meta])* $name:ident $set:ident: $type:ident,)* }) => {
        impl $struct {
            $(
                $(#[$doc])*
                pub fn $name(&self) -> $type {
                    <$type as $crate::number::Number>::of(self.fields().$name)
                }

                #[doc = concat!("Sets [`", stringify!($name), "`](", stringify!($struct), "::", stringify!($name), ").")]
                pub fn $set(&mut self, value: $type) {
                    self.fields_mut().$name = $crate::number::Number::number(value);
                }
            )*

            fn show_numbers(&self, f: &mut core::fmt::DebugStruct<'_, '_>) {
                $(f.field(stringify!($name), &self.$name());)*
            }
        }
    };
}

/// The numbers of a struct that are its own fields.
macro_rules! own_fields {
    ($struct:ident) => {
        impl $struct {
            fn fields(&self) -> &$struct {
                self
            }

            fn fields_mut(&mut self) -> &mut $struct {
                self
            }
        }
    };
}

pub(crate) use {accessors, own_fields};
