//! The distance between two addresses.

/// A distance, in the unit of the address type `A`.
#[derive(Debug, Clone, Copy, PartialEq, Eq)]
pub struct AddressDiff<A>(pub A);

impl<A> AddressDiff<A> {
    pub const fn from_const(amount: A) -> Self {
        AddressDiff(amount)
    }
}
