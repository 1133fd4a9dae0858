//! A branch of a book, and its row of numbers in either form.

use crate::definitions::form::Form;

/// In an old book the second kVA is the first again: that is what the book moves up with.
#[derive(Clone, Debug, PartialEq, Eq)]
pub struct Branch {
    pub first: usize,
    pub second: usize,
    pub kva: u32,
    pub second_kva: u32,
    pub served: bool,
}

impl Branch {
    /// A branch with both ratings equal.
    pub fn rated(first: usize, second: usize, kva: u32, served: bool) -> Branch {
        Branch { first, second, kva, second_kva: kva, served }
    }

    /// The branch that a row of numbers names.
    pub fn of_row(form: Form, row: &[u32]) -> Branch {
        let (first, second) = (row[0] as usize, row[1] as usize);
        match form {
            Form::Old => Branch::rated(first, second, row[2], row[3] == 1),
            Form::New => Branch { first, second, kva: row[2], second_kva: row[3], served: row[4] == 1 },
        }
    }

    /// Its numbers: first bus, second bus, kVA, in the new form second kVA, status.
    pub fn row(&self, form: Form) -> Vec<u32> {
        let (first, second, status) = (self.first as u32, self.second as u32, self.served as u32);
        match form {
            Form::Old => vec![first, second, self.kva, status],
            Form::New => vec![first, second, self.kva, self.second_kva, status],
        }
    }
}
