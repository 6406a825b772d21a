//! What a refused call answers: the number of document 01's table, and beside it the field at fault (order 11).

/// Fields are counted from 0 at the verb, as they stand in the line of the call. Two bytes, so that an outcome fits a register.
#[derive(Clone, Copy, PartialEq, Eq, Debug)]
pub struct Refusal {
    pub number: u8,
    pub field: u8,
}

impl Refusal {
    pub const fn at(number: u8, field: u8) -> Refusal {
        Refusal { number, field }
    }

    /// For no field's sake: 2, 7, 12, 13 and 14, 3 for lent records, and 1 for a list of names.
    pub const fn whole(number: u8) -> Refusal {
        Refusal::at(number, 0)
    }

    /// The refusal of an event in the line that names it: field 2, the name, stands for the code, 2, and the mask, 3.
    pub fn by_name(self) -> Refusal {
        Refusal { field: if self.field > 2 { self.field - 1 } else { self.field }, ..self }
    }
}
