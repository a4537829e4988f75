//! Document 01, "The declarations" and "Log rows and the run": rows of RFC 4180 and their fields.
//! CR LF ends a row; any other CR or LF lies inside its row.

/// The bytes up to the first CR directly followed by LF, or to the end. The empty text has one too.
pub fn first_row(text: &[u8]) -> &[u8] {
    let end = text.windows(2).position(|pair| pair == b"\r\n").unwrap_or(text.len());
    &text[..end]
}

/// The first row and what follows its line end.
pub fn split_first_row(text: &[u8]) -> (&[u8], &[u8]) {
    let row = first_row(text);
    let rest = text[row.len()..].strip_prefix(b"\r\n").unwrap_or(b"");
    (row, rest)
}

/// Hands out the rows of a text one after another, from an offset on.
pub struct Reader<'t> {
    text: &'t [u8],
    offset: usize,
}

impl<'t> Reader<'t> {
    /// A reader from an offset that is at most the text's length; past it there are no rows.
    pub fn new(text: &'t [u8], offset: usize) -> Reader<'t> {
        Reader { text, offset }
    }

    /// The offset of the row that comes next.
    pub fn offset(&self) -> usize {
        self.offset
    }

    /// The row that comes next, left in place.
    pub fn peek(&self) -> Option<&'t [u8]> {
        match self.text.get(self.offset..) {
            None | Some([]) => None,
            Some(rest) => Some(first_row(rest)),
        }
    }
}

impl<'t> Iterator for Reader<'t> {
    type Item = &'t [u8];

    fn next(&mut self) -> Option<&'t [u8]> {
        let rest = self.text.get(self.offset..)?;
        if rest.is_empty() {
            return None;
        }
        let (row, after) = split_first_row(rest);
        self.offset = self.text.len() - after.len();
        Some(row)
    }
}

/// The rows of a text: none for the empty text.
pub fn rows(text: &[u8]) -> Reader<'_> {
    Reader::new(text, 0)
}

/// The fields of a row: the bytes between commas, at least one field.
pub fn fields(row: &[u8]) -> Vec<&[u8]> {
    row.split(|&b| b == b',').collect()
}

/// Field `index` of a row, or the empty part at its start.
pub fn field(row: &[u8], index: u64) -> &[u8] {
    usize::try_from(index).ok().and_then(|index| row.split(|&b| b == b',').nth(index)).unwrap_or(&row[..0])
}

/// The row holds a CR or LF that ends no row.
pub fn has_stray_line_end(row: &[u8]) -> bool {
    row.iter().any(|&b| b == b'\r' || b == b'\n')
}
