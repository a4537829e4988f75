//! Document 01, "Numbers of refusal": each case has a name, and this file alone gives its number.

/// Why a call was refused.
#[derive(Clone, Copy, Debug, PartialEq, Eq, PartialOrd, Ord, Hash)]
pub enum Refusal {
    /// Declarations or pattern longer than 4,096 bytes.
    TextTooLong = 1,
    /// Declarations: a stray CR or LF, a wrong number of fields, a first field other than `event`, a bad mark.
    DeclarationShape = 2,
    /// A bad name in the declarations.
    BadName = 3,
    /// A name twice in the declarations.
    NameTwice = 4,
    /// Over 4 parameters, over 16 events, or no event.
    DeclarationCount = 5,
    /// Not of the pattern grammar.
    NotOfTheGrammar = 6,
    /// The pattern names an event that is not declared.
    UndeclaredEvent = 7,
    /// A 32nd event name in the pattern.
    TooManyPositions = 8,
    /// A parenthesis opened while 16 are open.
    NestedTooDeep = 9,
    /// More than 64 states.
    TooManyStates = 10,
    /// Property table: a number outside its range, or no verdict asked for.
    PropertyOutOfRange = 11,
    /// Session: tables that no check lets pass.
    SessionBroken = 12,
    /// Event number not declared.
    EventNotDeclared = 13,
    /// Values other than exactly the event's set.
    ValuesNotTheSet = 14,
    /// No room for the seen bindings after the event.
    NoRoomForSeen = 15,
    /// No room for the kept combinations after the event, or at start.
    NoRoomForKept = 16,
    /// No room for the reports of the event.
    NoRoomForReports = 17,
    /// Row: over 128 bytes, a CR, LF or quote, a wrong number of fields.
    RowShape = 18,
    /// Row: event name unknown.
    EventUnknown = 19,
    /// Row: a field neither empty nor a value.
    FieldNotAValue = 20,
    /// Row: filled fields other than the event's set.
    FieldsNotTheSet = 21,
    /// The log's header differs from the declarations'.
    HeaderDiffers = 22,
    /// Lookup: a number past the parameters is not 0.
    LookupPastParameters = 23,
    /// The offset lies past the log.
    OffsetPastLog = 24,
    /// Declarations and property table differ in counts or sets.
    DeclarationsDiffer = 25,
}

impl Refusal {
    /// The document's number.
    pub fn number(self) -> u32 {
        self as u32
    }

    /// The refusal with offset zero: every one but 6 to 9.
    pub fn plain(self) -> Refused {
        Refused { refusal: self, offset: 0 }
    }

    /// The refusal at an offset of the pattern text: 6 to 9.
    pub fn at(self, offset: usize) -> Refused {
        Refused { refusal: self, offset }
    }
}

/// A refusal and its offset.
#[derive(Clone, Copy, Debug, PartialEq, Eq)]
pub struct Refused {
    pub refusal: Refusal,
    pub offset: usize,
}

impl From<Refusal> for Refused {
    fn from(refusal: Refusal) -> Refused {
        refusal.plain()
    }
}
