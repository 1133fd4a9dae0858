//! The two forms of a packed book (document 02, W3): which fields a branch has, and where everything stands.

use crate::definitions::bits;
use crate::definitions::fields::{self, Field, BUS_FIELDS};

/// The largest injection in kW, and the largest rating in kVA.
pub const LARGEST: i64 = 1_000_000;
pub const HEADER: usize = 32;
/// The place of the header's layout bit, 1 in a new book; its four fill bits come after it.
pub const LAYOUT: usize = 27;

#[derive(Clone, Copy, Debug, PartialEq, Eq, PartialOrd, Ord)]
pub enum Form {
    Old,
    New,
}

impl Form {
    pub const BOTH: [Form; 2] = [Form::Old, Form::New];

    /// The form that a book's layout bit names; under 4 bytes there is no header, and so no form.
    pub fn of(bytes: &[u8]) -> Option<Form> {
        (8 * bytes.len() >= HEADER).then(|| if bits::bit(bytes, LAYOUT) { Form::New } else { Form::Old })
    }

    pub fn other(self) -> Form {
        match self {
            Form::Old => Form::New,
            Form::New => Form::Old,
        }
    }

    pub fn layout_bit(self) -> u32 {
        (self == Form::New) as u32
    }

    /// A branch in layout order. The table beside a book has the same numbers in the same order, and a fault is told by the
    /// place here, so that each is stated once over both forms.
    pub fn fields(self) -> &'static [Field] {
        match self {
            Form::Old => &[Field::FirstBus, Field::SecondBus, Field::Kva, Field::Status],
            Form::New => &[Field::FirstBus, Field::SecondBus, Field::Kva, Field::SecondKva, Field::Status],
        }
    }

    /// How many numbers a branch has in the table.
    pub fn numbers(self) -> usize {
        self.fields().len()
    }

    /// The place of a branch's first bit. That of the branch after the last is the tail's.
    pub fn branch_at(self, buses: usize, branch: usize) -> usize {
        bus_at(buses) + fields::width_of(self.fields()) * branch
    }

    /// The place of a branch's status bit, which is its last.
    pub fn status_at(self, buses: usize, branch: usize) -> usize {
        self.branch_at(buses, branch + 1) - 1
    }

    /// The exact length in bytes of a book with these counts.
    pub fn length(self, buses: usize, count: usize) -> usize {
        self.branch_at(buses, count).div_ceil(8)
    }
}

/// The place of a bus's first bit, in either form. That of the bus after the last is the first branch's.
pub fn bus_at(bus: usize) -> usize {
    HEADER + fields::width_of(BUS_FIELDS) * bus
}

impl std::fmt::Display for Form {
    fn fmt(&self, out: &mut std::fmt::Formatter) -> std::fmt::Result {
        out.write_str(match self {
            Form::Old => "old",
            Form::New => "new",
        })
    }
}
