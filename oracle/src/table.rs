//! The definition table of document 01 in its two forms (A6): its records, and every fault of number 3.

/// One record: a name and the LaTeX it stands for.
#[derive(Clone, Debug, PartialEq)]
pub struct Record {
    pub name: String,
    pub latex: String,
}

pub const TABLE_BYTES: usize = 32_768;
pub const TABLE_RECORDS: usize = 64;

/// The form of a table, which says how wide the headers of its records are and how they split.
#[derive(Clone, Copy, Debug, PartialEq)]
pub enum Form {
    Narrow,
    Wide,
}

impl Form {
    /// A table whose first byte is 00 is wide. The empty one is narrow.
    pub fn of(table: &[u8]) -> Self {
        if table.first() == Some(&0) { Form::Wide } else { Form::Narrow }
    }

    pub fn other(self) -> Self {
        match self {
            Form::Narrow => Form::Wide,
            Form::Wide => Form::Narrow,
        }
    }

    /// What a table has before its first record: a table of no records.
    pub fn beginning(self) -> &'static [u8] {
        match self {
            Form::Narrow => &[],
            Form::Wide => &[0],
        }
    }

    fn header_bytes(self) -> usize {
        match self {
            Form::Narrow => 2,
            Form::Wide => 3,
        }
    }

    /// The bits of the name's length and of the LaTeX's, which end a header. Bits before them are zero.
    fn length_bits(self) -> (usize, usize) {
        match self {
            Form::Narrow => (6, 10),
            Form::Wide => (7, 13),
        }
    }

    /// The longest name and the longest LaTeX.
    pub fn longest(self) -> (usize, usize) {
        let (name, latex) = self.length_bits();
        ((1 << name) - 1, (1 << latex) - 1)
    }

    /// The lengths in a header, or None where one of its first bits is not zero.
    fn lengths(self, header: &[u8]) -> Option<(usize, usize)> {
        let header = header.iter().fold(0, |bits, &b| bits << 8 | usize::from(b));
        let (name_bits, latex_bits) = self.length_bits();
        let (_, longest_latex) = self.longest();
        (header >> (name_bits + latex_bits) == 0).then_some((header >> latex_bits, header & longest_latex))
    }

    /// The bytes of one record, faulty ones too: lengths are cut to their bits.
    pub fn record_bytes(self, name: &[u8], latex: &[u8]) -> Vec<u8> {
        let (longest_name, longest_latex) = self.longest();
        let (_, latex_bits) = self.length_bits();
        let header = (name.len() & longest_name) << latex_bits | (latex.len() & longest_latex);
        let bytes = header.to_be_bytes();
        [&bytes[bytes.len() - self.header_bytes()..], name, latex].concat()
    }

    /// The table of these records, or None where a record or the table is too long for the form.
    pub fn table_of(self, records: &[Record]) -> Option<Vec<u8>> {
        let (longest_name, longest_latex) = self.longest();
        let mut table = self.beginning().to_vec();
        for Record { name, latex } in records {
            if name.len() > longest_name || latex.len() > longest_latex {
                return None;
            }
            table.extend(self.record_bytes(name.as_bytes(), latex.as_bytes()));
        }
        (table.len() <= TABLE_BYTES).then_some(table)
    }
}

/// The bytes of one record in the narrow form, cut as above.
pub fn record_bytes(name: &[u8], latex: &[u8]) -> Vec<u8> {
    Form::Narrow.record_bytes(name, latex)
}

/// The bytes that a formula and the LaTeX of a record may have.
pub fn is_own_byte(b: u8) -> bool {
    (0x20..=0x7E).contains(&b) || b == 0x09 || b == 0x0A
}

/// The records in the order in which they stand, or None for any fault of number 3.
pub fn read(table: &[u8]) -> Option<Vec<Record>> {
    read_as(Form::of(table), table)
}

/// The same for a table that is taken to be in this form.
pub fn read_as(form: Form, table: &[u8]) -> Option<Vec<Record>> {
    if table.len() > TABLE_BYTES {
        return None;
    }
    let mut records: Vec<Record> = Vec::new();
    let mut at = form.beginning().len();
    while at < table.len() {
        if records.len() == TABLE_RECORDS {
            return None;
        }
        let name_start = at + form.header_bytes();
        let (name_length, latex_length) = form.lengths(table.get(at..name_start)?)?;
        let name_end = name_start + name_length;
        let end = name_end + latex_length;
        let record = read_record(table.get(name_start..name_end)?, table.get(name_end..end)?)?;
        if records.iter().any(|r| r.name == record.name) {
            return None;
        }
        records.push(record);
        at = end;
    }
    Some(records)
}

fn read_record(name: &[u8], latex: &[u8]) -> Option<Record> {
    let begun_by_letter = name.first().is_some_and(u8::is_ascii_alphabetic);
    if !begun_by_letter || !name.iter().all(u8::is_ascii_alphanumeric) {
        return None;
    }
    if !latex.iter().all(|&b| is_own_byte(b) && b != b'$') {
        return None;
    }
    let text = |bytes: &[u8]| String::from_utf8(bytes.to_vec()).expect("only own bytes");
    Some(Record { name: text(name), latex: text(latex) })
}
