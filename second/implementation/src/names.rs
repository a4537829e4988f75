//! Document 01, "Log rows and the run": a name given back as a part of one of two lent texts.

use crate::class::name_at_start;
use crate::declarations::Declarations;

/// The name of an event, a part of the declarations; empty if there is none.
pub fn name_by_number<'d>(declarations: &'d [u8], _pattern: &[u8], number: u64) -> &'d [u8] {
    let Ok(declared) = Declarations::read(declarations) else {
        return &declarations[..0];
    };
    usize::try_from(number)
        .ok()
        .and_then(|number| declared.events.get(number))
        .map_or(&declarations[..0], |event| event.name)
}

/// The name bytes from an offset of the pattern text, if a letter is first; else empty.
pub fn name_by_offset<'p>(_declarations: &[u8], pattern: &'p [u8], offset: u64) -> &'p [u8] {
    usize::try_from(offset).ok().and_then(|offset| pattern.get(offset..)).map_or(&pattern[..0], name_at_start)
}

/// The number of the event with this name; refused declarations have none.
pub fn number_of_name(declarations: &[u8], name: &[u8]) -> Option<usize> {
    Declarations::read(declarations).ok()?.event_number(name)
}
