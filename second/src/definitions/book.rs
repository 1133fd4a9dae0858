//! The packed book of either form: what it says, its bytes, and reading these with refusals 1 to 7.

use crate::definitions::bits::{self, Packer};
use crate::definitions::branch::Branch;
use crate::definitions::fields::{Field, BUS_FIELDS};
use crate::definitions::form::{bus_at, Form, LAYOUT};
use crate::definitions::items::Items;
use crate::definitions::place::Refusal;

#[derive(Clone, Debug, PartialEq, Eq)]
pub struct Book {
    pub form: Form,
    pub factor: u32,
    pub injections: Vec<i64>,
    pub branches: Vec<Branch>,
}

impl Book {
    /// Whether the two ratings of some branch differ, be it in service or not.
    pub fn ratings_differ(&self) -> bool {
        self.branches.iter().any(|branch| branch.kva != branch.second_kva)
    }

    /// The length of its bytes in a form.
    pub fn length_in(&self, form: Form) -> usize {
        form.length(self.injections.len(), self.branches.len())
    }

    /// Its buses and branches, field by field.
    pub fn items(&self) -> Items {
        Items::new(self.form, &self.injections, self.branches.iter().map(|branch| branch.row(self.form)).collect())
    }
}

/// What stands before a book's buses.
pub struct Header {
    pub form: Form,
    pub buses: usize,
    pub count: usize,
    pub factor: u32,
}

pub fn counts_in_range(buses: usize, count: usize, factor: u32) -> bool {
    (1..=128).contains(&buses) && count <= 256 && (1..=1000).contains(&factor)
}

/// The header; 1 where there is none, then 2, then 3, which looks at the four bits after the layout bit.
fn header(bytes: &[u8]) -> Result<Header, u8> {
    let form = Form::of(bytes).ok_or(1)?;
    let (buses, count) = (bits::field(bytes, 0, 8) as usize, bits::field(bytes, 8, 9) as usize);
    let factor = bits::field(bytes, 17, 10);
    if !counts_in_range(buses, count, factor) {
        return Err(2);
    }
    if bits::field(bytes, LAYOUT + 1, 4) != 0 {
        return Err(3);
    }
    Ok(Header { form, buses, count, factor })
}

/// The header of bytes that are exactly as long as a book of their own form and counts; else 1 to 3, or 1 after these.
pub fn header_of_whole(bytes: &[u8]) -> Result<Header, u8> {
    let header = header(bytes)?;
    if bytes.len() == header.form.length(header.buses, header.count) {
        Ok(header)
    } else {
        Err(1)
    }
}

/// So many rows of numbers from a place on, as the fields say.
fn rows(bytes: &[u8], from: usize, fields: &[Field], count: usize) -> Vec<Vec<u32>> {
    let mut at = from;
    let mut next = |field: &Field| {
        at += field.width();
        bits::field(bytes, at - field.width(), field.width())
    };
    (0..count).map(|_| fields.iter().map(&mut next).collect()).collect()
}

/// The buses and branches of a book, field by field, whatever they say.
pub fn items(bytes: &[u8], header: &Header) -> Items {
    let Header { form, buses, count, .. } = *header;
    let branches = rows(bytes, form.branch_at(buses, 0), form.fields(), count);
    Items { form, buses: rows(bytes, bus_at(0), BUS_FIELDS, buses), branches }
}

/// What the bytes say, or the first refusal that holds.
pub fn unpack(bytes: &[u8]) -> Result<Book, Refusal> {
    let header = header_of_whole(bytes)?;
    let Header { form, buses, count, factor } = header;
    let items = items(bytes, &header);
    items.tested()?;
    if (form.branch_at(buses, count)..8 * bytes.len()).any(|place| bits::bit(bytes, place)) {
        return Err(6.into());
    }
    let injections = items.injections();
    if injections.iter().sum::<i64>() != 0 {
        return Err(7.into());
    }
    Ok(Book { form, factor, injections, branches: items.branches() })
}

/// The bytes of a book, whether or not a reader would take it: fields only need to fit their widths.
pub fn pack(book: &Book) -> Vec<u8> {
    pack_items(&book.items(), book.factor)
}

/// The same from its buses and branches field by field, so that minus zero can be said too.
pub fn pack_items(items: &Items, factor: u32) -> Vec<u8> {
    let mut packer = Packer::default();
    packer.put(items.buses.len() as u32, 8);
    packer.put(items.branches.len() as u32, 9);
    packer.put(factor, 10);
    packer.put(items.form.layout_bit(), 1);
    packer.put(0, 4);
    for (fields, rows) in [(BUS_FIELDS, &items.buses), (items.form.fields(), &items.branches)] {
        for row in rows {
            row.iter().zip(fields).for_each(|(&value, field)| packer.put(value, field.width()));
        }
    }
    packer.bytes()
}

/// The bytes of a book with one bus's injection given a value, and no other bit changed. 0 kW have the sign 0, so that minus zero
/// is never written.
pub fn with_injection(bytes: &[u8], bus: usize, kw: i64) -> Vec<u8> {
    let (sign, size) = (Field::Sign.width(), Field::Size.width());
    let mut changed = bytes.to_vec();
    bits::set_field(&mut changed, bus_at(bus), sign, (kw < 0) as u32);
    bits::set_field(&mut changed, bus_at(bus) + sign, size, kw.unsigned_abs() as u32);
    changed
}

/// The bytes of a book with one branch's status bit given a value, and no other bit changed.
pub fn with_status(bytes: &[u8], branch: usize, served: bool) -> Vec<u8> {
    let form = Form::of(bytes).expect("a book has a form");
    bits::with(bytes, form.status_at(bytes[0] as usize, branch), served)
}
