//! What a refusal is: one of the page's numbers, with its place.

/// A refusal, as the table "Refusal numbers" and the change requests list them.
#[derive(Clone, Copy, PartialEq, Eq, Debug)]
pub struct Refusal {
    /// The number, 1 to 12.
    pub number: u32,
    /// What the table's last column, or the request, names.
    pub place: u32,
}

impl Refusal {
    /// The refusal with this number at this place.
    pub const fn new(number: u32, place: u32) -> Self {
        Refusal { number, place }
    }
}
