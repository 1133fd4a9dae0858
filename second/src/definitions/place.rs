//! Where a book is wrong (document 02, W6): what a refusal of a book carries beside its number.

/// "The first offending bus or branch and which field it was, in layout order": the item is numbered from 0 like every bus and
/// branch, the field from 1.
#[derive(Clone, Copy, Debug, PartialEq, Eq)]
pub struct Place {
    pub item: usize,
    pub field: usize,
}

/// The refusal of a book; 4 and 5 carry a place, and no other does.
#[derive(Clone, Copy, Debug, PartialEq, Eq)]
pub struct Refusal {
    pub number: u8,
    pub place: Option<Place>,
}

impl Refusal {
    pub fn at(number: u8, item: usize, field: usize) -> Refusal {
        Refusal { number, place: Some(Place { item, field }) }
    }
}

/// A refusal without a place.
impl From<u8> for Refusal {
    fn from(number: u8) -> Refusal {
        Refusal { number, place: None }
    }
}

/// The number, then the item and the field where there is a place: so a list prints it.
impl std::fmt::Display for Refusal {
    fn fmt(&self, out: &mut std::fmt::Formatter) -> std::fmt::Result {
        write!(out, "{}{}", self.number, printed(self.place))
    }
}

/// The item and the field, each after a space; nothing where there is no place.
pub fn printed(place: Option<Place>) -> String {
    place.map_or(String::new(), |place| format!(" {} {}", place.item, place.field))
}
