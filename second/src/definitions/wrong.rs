//! What refusals 4 and 5 find wrong with a field of a bus or a branch, and whose fault it is (document 02, W6).

use crate::definitions::fields::Field;
use crate::definitions::form::{Form, LARGEST};

/// In layout order.
#[derive(Clone, Copy, Debug, PartialEq, Eq, PartialOrd, Ord)]
pub enum Wrong {
    SizeAbove,
    MinusZero,
    FirstNotBelow,
    SecondNotBelow,
    EqualEnds,
    KvaAbove,
    SecondKvaBelow,
    SecondKvaAbove,
    StatusAbove,
}

/// What is wrong with a field of an item in a book with so many buses; `of` gives every field of that item.
///
/// "Minus zero is the size's, equal ends the second bus's". A second figure below the first is the second figure's.
pub fn wrong(field: Field, of: impl Fn(Field) -> u32, buses: u32) -> Option<Wrong> {
    let (value, largest) = (of(field), LARGEST as u32);
    match field {
        Field::Size if value > largest => Some(Wrong::SizeAbove),
        Field::Size if value == 0 && of(Field::Sign) == 1 => Some(Wrong::MinusZero),
        Field::FirstBus if value >= buses => Some(Wrong::FirstNotBelow),
        Field::SecondBus if value >= buses => Some(Wrong::SecondNotBelow),
        Field::SecondBus if value == of(Field::FirstBus) => Some(Wrong::EqualEnds),
        Field::Kva if value > largest => Some(Wrong::KvaAbove),
        Field::SecondKva if value < of(Field::Kva) => Some(Wrong::SecondKvaBelow),
        Field::SecondKva if value > largest => Some(Wrong::SecondKvaAbove),
        Field::Status if value > 1 => Some(Wrong::StatusAbove),
        _ => None,
    }
}

impl Wrong {
    pub const ALL: [Wrong; 9] = [
        Wrong::SizeAbove,
        Wrong::MinusZero,
        Wrong::FirstNotBelow,
        Wrong::SecondNotBelow,
        Wrong::EqualEnds,
        Wrong::KvaAbove,
        Wrong::SecondKvaBelow,
        Wrong::SecondKvaAbove,
        Wrong::StatusAbove,
    ];

    /// The field at fault.
    pub fn field(self) -> Field {
        match self {
            Wrong::SizeAbove | Wrong::MinusZero => Field::Size,
            Wrong::FirstNotBelow => Field::FirstBus,
            Wrong::SecondNotBelow | Wrong::EqualEnds => Field::SecondBus,
            Wrong::KvaAbove => Field::Kva,
            Wrong::SecondKvaBelow | Wrong::SecondKvaAbove => Field::SecondKva,
            Wrong::StatusAbove => Field::Status,
        }
    }

    /// Whether it can be in a form at all.
    fn in_form(self, form: Form) -> bool {
        self.field().of_bus() || form.fields().contains(&self.field())
    }

    /// All that can be wrong with a book that was read: its status is one bit, and so never at fault.
    pub fn of_book(form: Form) -> Vec<Wrong> {
        Wrong::ALL.into_iter().filter(|wrong| wrong.in_form(form) && *wrong != Wrong::StatusAbove).collect()
    }

    /// All that can be wrong with the tables that a book is written from: these hold signed numbers, of which none is minus zero.
    pub fn of_tables(form: Form) -> Vec<Wrong> {
        Wrong::ALL.into_iter().filter(|wrong| wrong.in_form(form) && *wrong != Wrong::MinusZero).collect()
    }
}

impl std::fmt::Display for Wrong {
    fn fmt(&self, out: &mut std::fmt::Formatter) -> std::fmt::Result {
        out.write_str(match self {
            Wrong::SizeAbove => "size above 1,000,000",
            Wrong::MinusZero => "minus zero",
            Wrong::FirstNotBelow => "first bus not below the count",
            Wrong::SecondNotBelow => "second bus not below the count",
            Wrong::EqualEnds => "equal ends",
            Wrong::KvaAbove => "kVA above 1,000,000",
            Wrong::SecondKvaBelow => "second kVA below the first",
            Wrong::SecondKvaAbove => "second kVA above 1,000,000",
            Wrong::StatusAbove => "status above 1",
        })
    }
}
