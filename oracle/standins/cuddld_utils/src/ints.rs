//! Numbers that never stand for one another. The arithmetic (`add`, `offset`) belongs to
//! `Symbol::resolve`, which document 01 leaves out; the oracle never calls it.
use std::fmt;

pub trait ExtractNumber {
    type Number;
    fn extract(&self) -> Self::Number;
}

macro_rules! number {
    ($name:ident, $inner:ty, $($from:ty),*) => {
        #[derive(Debug, Clone, Copy, PartialEq, Eq, PartialOrd, Ord, Hash)]
        pub struct $name($inner);

        $(impl From<$from> for $name {
            fn from(value: $from) -> Self {
                $name(value.into())
            }
        })*

        impl ExtractNumber for $name {
            type Number = $inner;
            fn extract(&self) -> $inner {
                self.0
            }
        }
    };
}

number!(Absolute, u64, u8, u64);
number!(Address, u64, u64);
number!(Length, u64, u64);
number!(Offset, i64, i32, i64);

impl Offset {
    pub fn add(self, other: Offset) -> Result<Offset, OutOfBoundsError> {
        self.0.checked_add(other.0).map(Offset).ok_or(OutOfBoundsError)
    }
}

impl Address {
    pub fn offset(self, offset: Offset) -> Result<Address, OutOfBoundsError> {
        self.0.checked_add_signed(offset.0).map(Address).ok_or(OutOfBoundsError)
    }
}

#[derive(Debug)]
pub struct OutOfBoundsError;

impl fmt::Display for OutOfBoundsError {
    fn fmt(&self, f: &mut fmt::Formatter<'_>) -> fmt::Result {
        f.write_str("out of bounds")
    }
}

impl std::error::Error for OutOfBoundsError {}
