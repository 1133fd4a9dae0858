//! Damage aimed at one field of a bus or a branch, in a book or in the tables that one is written from; at times at others too.

use crate::books::random::Random;
use crate::books::random_books::{counts, strained};
use crate::definitions::book::Book;
use crate::definitions::fields::Field;
use crate::definitions::form::{Form, LARGEST};
use crate::definitions::items::Items;
use crate::definitions::wrong::Wrong;

/// Where the numbers stand: a field of a book has its own bits, a number of the tables 32, and an injection there is signed.
#[derive(Clone, Copy, PartialEq, Eq)]
pub enum Held {
    Book,
    Tables,
}

impl Held {
    /// All that can be wrong there.
    pub fn possible(self, form: Form) -> Vec<Wrong> {
        match self {
            Held::Book => Wrong::of_book(form),
            Held::Tables => Wrong::of_tables(form),
        }
    }

    /// The largest number that a field can have there; a negative injection goes one further than a positive one.
    fn most(self, field: Field, sign: u32) -> u32 {
        match (self, field) {
            (Held::Book, _) => (1 << field.width()) - 1,
            (Held::Tables, Field::Size) => i32::MAX as u32 + sign,
            (Held::Tables, _) => u32::MAX,
        }
    }
}

/// A random book of a form, with a branch and at most so many buses; small ones and the largest often.
pub fn target(random: &mut Random, form: Form, most_buses: usize) -> Book {
    let (buses, count) = match random.below(6) {
        0 => (128, 256),
        1 | 2 => (2 + random.below(4), 1 + random.below(5)),
        _ => counts(random),
    };
    Book { form, ..strained(random, buses.clamp(2, most_buses), count.max(1)) }
}

/// Makes one thing wrong with one item. No bus number of a book is too large where it has 128 buses, so that it stays right.
fn strike(random: &mut Random, items: &mut Items, held: Held, wrong: Wrong, item: usize) {
    let (field, last_bus) = (wrong.field(), items.buses.len() as u32 - 1);
    let value = match wrong {
        Wrong::SizeAbove => {
            let sign = random.below(2) as u32;
            *items.field_mut(item, Field::Sign) = sign;
            above(random, LARGEST as u32, held.most(field, sign))
        }
        Wrong::MinusZero => {
            *items.field_mut(item, Field::Sign) = 1;
            0
        }
        Wrong::FirstNotBelow | Wrong::SecondNotBelow => above(random, last_bus, held.most(field, 0)),
        Wrong::EqualEnds => *items.field_mut(item, Field::FirstBus),
        Wrong::KvaAbove | Wrong::SecondKvaAbove => above(random, LARGEST as u32, held.most(field, 0)),
        Wrong::SecondKvaBelow => {
            let kva = items.field_mut(item, Field::Kva);
            *kva = (*kva).max(1);
            let below = [*kva - 1, random.below(*kva as usize) as u32];
            *random.pick(&below)
        }
        Wrong::StatusAbove => above(random, 1, held.most(field, 0)),
    };
    *items.field_mut(item, field) = value;
}

/// A number above what is right: by one, the largest that there can be, or any.
fn above(random: &mut Random, right: u32, most: u32) -> u32 {
    if right >= most {
        return most;
    }
    match random.below(3) {
        0 => right + 1,
        1 => most,
        _ => random.between(right as i64 + 1, most as i64) as u32,
    }
}

/// An item with this field: the first, the last, or any.
fn any_item(random: &mut Random, items: &Items, field: Field) -> Option<usize> {
    let count = items.count_with(field);
    let last = count.checked_sub(1)?;
    Some(match random.below(6) {
        0 => 0,
        1 | 2 => last,
        _ => random.below(count),
    })
}

/// Makes one thing wrong as wanted, if there is such an item; once in two times others besides, so that it matters which is the
/// first.
pub fn damage(random: &mut Random, items: &mut Items, held: Held, wrong: Wrong) {
    let Some(item) = any_item(random, items, wrong.field()) else { return };
    strike(random, items, held, wrong, item);
    let more = if random.once_in(2) { 0 } else { 1 + random.below(3) };
    for _ in 0..more {
        if let Some((other, place)) = another(random, items, held, wrong, item) {
            strike(random, items, held, other, place);
        }
    }
}

/// Something else to make wrong: with a bus, another bus or a branch; with a branch, that branch or another, and seldom a bus,
/// which hides every branch.
fn another(random: &mut Random, items: &Items, held: Held, wrong: Wrong, item: usize) -> Option<(Wrong, usize)> {
    let (bus, way) = (wrong.field().of_bus(), random.below(8));
    let on_bus = if bus { way < 4 } else { way == 0 };
    let mut kinds = held.possible(items.form);
    kinds.retain(|other| other.field().of_bus() == on_bus);
    let other = *random.pick(&kinds);
    let same = !bus && !on_bus && random.once_in(2);
    let place = if same { Some(item) } else { any_item(random, items, other.field()) };
    place.map(|place| (other, place))
}
