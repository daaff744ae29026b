//! The table of the fields of A, G and Z.

/// The two spellings of the service field.
pub const SERVICE_PLAIN: &[u8; 17] = b"CODIGO DE BARRAS ";
pub const SERVICE_ACCENTED: &[u8; 17] = b"C\xD3DIGO DE BARRAS ";

/// What a field may contain.
#[derive(Clone, Copy, Debug, PartialEq, Eq)]
pub enum Content {
    Fixed(&'static [u8]),
    /// `04` or `06`; another content is refused as that of a fixed field is.
    Version,
    Service,
    Text,
    Digits,
    Money,
    Date,
    Barcode,
    Capture,
    Form,
}

/// A row of the table: a field of a record, its places and its content.
#[derive(Clone, Copy, Debug, PartialEq, Eq)]
pub struct Row {
    pub letter: u8,
    pub first: usize,
    pub last: usize,
    pub content: Content,
}

const fn row(letter: u8, first: usize, last: usize, content: Content) -> Row {
    Row {
        letter,
        first,
        last,
        content,
    }
}

/// The three layouts in one table, which both versions share: rows 0 to 10 are A, 11 to 23 G, 24 to 27 Z.
pub const TABLE: [Row; 28] = [
    row(b'A', 1, 1, Content::Fixed(b"A")),
    row(b'A', 2, 2, Content::Fixed(b"2")),
    row(b'A', 3, 22, Content::Text),
    row(b'A', 23, 42, Content::Text),
    row(b'A', 43, 45, Content::Digits),
    row(b'A', 46, 65, Content::Text),
    row(b'A', 66, 73, Content::Date),
    row(b'A', 74, 79, Content::Digits),
    row(b'A', 80, 81, Content::Version),
    row(b'A', 82, 98, Content::Service),
    row(b'A', 99, 150, Content::Fixed(&[b' '; 52])),
    row(b'G', 1, 1, Content::Fixed(b"G")),
    row(b'G', 2, 21, Content::Text),
    row(b'G', 22, 29, Content::Date),
    row(b'G', 30, 37, Content::Date),
    row(b'G', 38, 81, Content::Barcode),
    row(b'G', 82, 93, Content::Money),
    row(b'G', 94, 100, Content::Money),
    row(b'G', 101, 108, Content::Digits),
    row(b'G', 109, 116, Content::Text),
    row(b'G', 117, 117, Content::Capture),
    row(b'G', 118, 140, Content::Text),
    row(b'G', 141, 141, Content::Form),
    row(b'G', 142, 150, Content::Fixed(&[b' '; 9])),
    row(b'Z', 1, 1, Content::Fixed(b"Z")),
    row(b'Z', 2, 7, Content::Digits),
    row(b'Z', 8, 24, Content::Money),
    row(b'Z', 25, 150, Content::Fixed(&[b' '; 126])),
];

// The rows by name. The letters, rows 0, 11 and 24, have none: a letter is read before the fields.
pub const A_RETURN: usize = 1;
pub const A_AGREEMENT: usize = 2;
pub const A_COMPANY: usize = 3;
pub const A_BANK: usize = 4;
pub const A_BANK_NAME: usize = 5;
pub const A_DATE: usize = 6;
pub const A_SEQUENCE: usize = 7;
pub const A_VERSION: usize = 8;
pub const A_SERVICE: usize = 9;
pub const A_BLANK: usize = 10;
pub const G_ACCOUNT: usize = 12;
pub const G_PAID: usize = 13;
pub const G_CREDITED: usize = 14;
pub const G_BARCODE: usize = 15;
pub const G_RECEIVED: usize = 16;
pub const G_TARIFF: usize = 17;
pub const G_NUMBER: usize = 18;
pub const G_BRANCH: usize = 19;
pub const G_CAPTURE: usize = 20;
pub const G_AUTHENTICATION: usize = 21;
pub const G_FORM: usize = 22;
pub const G_BLANK: usize = 23;
pub const Z_COUNT: usize = 25;
pub const Z_TOTAL: usize = 26;
pub const Z_BLANK: usize = 27;
