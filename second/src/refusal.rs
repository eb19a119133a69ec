//! The sixteen refusals, each with its number in document 01.

#[derive(Clone, Copy, PartialEq, Eq, PartialOrd, Ord, Debug)]
pub enum Refusal {
    CountOutside = 1,
    RightAbove3 = 2,
    DeskOutside = 3,
    ClassOutside = 4,
    NoSuchOperation = 5,
    NoSuchProcess = 6,
    NoSuchFile = 7,
    ExtraNotZero = 8,
    CopyOntoItself = 9,
    WrongLength = 10,
    RoomTooShort = 11,
    NoSuchRouteDesk = 12,
    SameRouteDesks = 13,
    BrokenLine = 14,
    NoSetup = 15,
    StoreDoesNotFit = 16,
}

impl Refusal {
    pub fn number(self) -> u32 {
        self as u32
    }
}
