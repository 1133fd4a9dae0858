//! The buses and branches of a book as their fields stand, right or wrong: what a reader finds in the bytes and a writer in its
//! tables. Both test them here for refusals 4 and 5, over both forms at once.

use crate::definitions::branch::Branch;
use crate::definitions::fields::{Field, BUS_FIELDS};
use crate::definitions::form::Form;
use crate::definitions::place::{Place, Refusal};
use crate::definitions::wrong::{wrong, Wrong};

/// A row of numbers a bus and a branch, in layout order.
#[derive(Clone, Debug, PartialEq, Eq)]
pub struct Items {
    pub form: Form,
    pub buses: Vec<Vec<u32>>,
    pub branches: Vec<Vec<u32>>,
}

/// One thing that is wrong: the refusal that it asks for, where it stands, and what it is.
#[derive(Clone, Copy, Debug, PartialEq, Eq)]
pub struct Fault {
    pub number: u8,
    pub place: Place,
    pub wrong: Wrong,
}

impl Items {
    /// From injections, which have no minus zero, and the rows of the branches.
    pub fn new(form: Form, injections: &[i64], branches: Vec<Vec<u32>>) -> Items {
        let bus = |&kw: &i64| vec![(kw < 0) as u32, kw.unsigned_abs() as u32];
        Items { form, buses: injections.iter().map(bus).collect(), branches }
    }

    /// All that is wrong, in the order it is looked for: every bus (4) before any branch (5), these in rising number, and the
    /// fields of each in layout order.
    pub fn faults(&self) -> impl Iterator<Item = Fault> + '_ {
        let buses = self.faults_of(4, BUS_FIELDS, &self.buses);
        buses.chain(self.faults_of(5, self.form.fields(), &self.branches))
    }

    fn faults_of<'a>(&self, number: u8, fields: &'a [Field], rows: &'a [Vec<u32>]) -> impl Iterator<Item = Fault> + 'a {
        let buses = self.buses.len() as u32;
        let fault = move |item: usize, at: usize| {
            let of = |field: Field| rows[item][place_in(fields, field)];
            let wrong = wrong(fields[at], of, buses)?;
            Some(Fault { number, place: Place { item, field: at + 1 }, wrong })
        };
        (0..rows.len()).flat_map(move |item| (0..fields.len()).filter_map(move |at| fault(item, at)))
    }

    /// Where something is wrong, the first of it is the refusal: the first offending item, and in it the first offending field.
    pub fn tested(&self) -> Result<(), Refusal> {
        let first = self.faults().next();
        first.map_or(Ok(()), |fault| Err(Refusal { number: fault.number, place: Some(fault.place) }))
    }

    /// The injections that tested rows name.
    pub fn injections(&self) -> Vec<i64> {
        let injection = |row: &Vec<u32>| if row[0] == 1 { -(row[1] as i64) } else { row[1] as i64 };
        self.buses.iter().map(injection).collect()
    }

    /// The branches that tested rows name.
    pub fn branches(&self) -> Vec<Branch> {
        self.branches.iter().map(|row| Branch::of_row(self.form, row)).collect()
    }

    /// How many items have this field: the buses, or the branches.
    pub fn count_with(&self, field: Field) -> usize {
        if field.of_bus() {
            self.buses.len()
        } else {
            self.branches.len()
        }
    }

    /// A field of a bus or a branch, to be given a value, right or wrong.
    pub fn field_mut(&mut self, item: usize, field: Field) -> &mut u32 {
        if field.of_bus() {
            &mut self.buses[item][place_in(BUS_FIELDS, field)]
        } else {
            &mut self.branches[item][place_in(self.form.fields(), field)]
        }
    }
}

fn place_in(fields: &[Field], wanted: Field) -> usize {
    fields.iter().position(|field| *field == wanted).expect("a field of this item")
}
