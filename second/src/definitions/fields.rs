//! The fields of a bus and of a branch, how wide each is, and the order in which they stand and are numbered.

#[derive(Clone, Copy, Debug, PartialEq, Eq)]
pub enum Field {
    Sign,
    Size,
    FirstBus,
    SecondBus,
    Kva,
    SecondKva,
    Status,
}

impl Field {
    /// How many bits it has in a book.
    pub fn width(self) -> usize {
        match self {
            Field::Sign | Field::Status => 1,
            Field::FirstBus | Field::SecondBus => 7,
            Field::Size | Field::Kva | Field::SecondKva => 20,
        }
    }

    /// Whether it is one of a bus, not of a branch.
    pub fn of_bus(self) -> bool {
        BUS_FIELDS.contains(&self)
    }
}

/// A bus in layout order, the same in both forms; `Form::fields` has a branch.
pub const BUS_FIELDS: &[Field] = &[Field::Sign, Field::Size];

/// How many bits these fields have together.
pub fn width_of(fields: &[Field]) -> usize {
    fields.iter().map(|field| field.width()).sum()
}
