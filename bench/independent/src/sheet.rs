//! Reads the bytes of a month sheet into a book.

use crate::book::{Book, Refusal};

pub const LONGEST: usize = 65_536;
const HEADER: usize = 6;
const SECTION_START: usize = 3;
const MOST_ITEMS: usize = 256;

#[derive(Clone, Copy)]
enum Flaw {
    TooLong = 31,
    CutShort = 32,
    UnknownKind = 33,
    TooManyItems = 34,
    LeftOver = 35,
}

pub struct Fault {
    pub layer: u8,
    pub number: u8,
    pub offset: usize,
    pub item: usize,
}

impl Fault {
    fn sheet(flaw: Flaw, offset: usize) -> Fault {
        Fault {
            layer: 1,
            number: flaw as u8,
            offset,
            item: 0,
        }
    }

    fn book(refusal: Refusal, offset: usize, item: usize) -> Fault {
        Fault {
            layer: 2,
            number: refusal as u8,
            offset,
            item,
        }
    }
}

pub fn load(sheet: &[u8]) -> Result<Book, Fault> {
    if sheet.len() > LONGEST {
        return Err(Fault::sheet(Flaw::TooLong, 0));
    }
    let header: &[u8; HEADER] = sheet.first_chunk().ok_or(Fault::sheet(Flaw::CutShort, 0))?;
    let mut book =
        Book::open(header[1], u32_at(header, 2)).map_err(|refusal| Fault::book(refusal, 0, 0))?;
    let mut offset = HEADER;
    for _ in 0..header[0] {
        offset += load_section(&mut book, &sheet[offset..], offset)?;
    }
    if offset < sheet.len() {
        return Err(Fault::sheet(Flaw::LeftOver, offset));
    }
    Ok(book)
}

/// Makes the calls of the section that `bytes` begin with; answers its length.
fn load_section(book: &mut Book, bytes: &[u8], offset: usize) -> Result<usize, Fault> {
    let (&[kind, low, high], body) = bytes
        .split_first_chunk::<SECTION_START>()
        .ok_or(Fault::sheet(Flaw::CutShort, offset))?;
    let section = Section {
        count: u16::from_le_bytes([low, high]).into(),
        body,
        offset,
    };
    match kind {
        1 => section
            .each(|head: &[u8; 1], term: &[u8; 5]| book.enrol(head[0], term[0], u32_at(term, 1))),
        2 => section.each(|head: &[u8; 4], term: &[u8; 14]| {
            book.enter(
                u32_at(head, 0),
                term[0],
                term[1],
                u64_at(term, 2),
                u32_at(term, 10),
            )
        }),
        3 => section.each(|head: &[u8; 8], term: &[u8; 13]| {
            let (new, old) = (u32_at(head, 0), u32_at(head, 4));
            book.transfer(new, old, term[0], u64_at(term, 1), u32_at(term, 9))
        }),
        4 => section.each(|head: &[u8; 1], term: &[u8; 16]| {
            book.meter(head[0], u64_at(term, 0), u64_at(term, 8))
        }),
        _ => Err(Fault::sheet(Flaw::UnknownKind, offset)),
    }
}

struct Section<'a> {
    count: usize,
    /// All that follows the kind and the count.
    body: &'a [u8],
    offset: usize,
}

impl Section<'_> {
    /// Makes the call of each item in turn; answers the length of the section.
    fn each<const HEAD: usize, const TERM: usize>(
        &self,
        mut call: impl FnMut(&[u8; HEAD], &[u8; TERM]) -> Result<(), Refusal>,
    ) -> Result<usize, Fault> {
        if self.count > MOST_ITEMS {
            return Err(Fault::sheet(Flaw::TooManyItems, self.offset));
        }
        let length = self.count * (HEAD + TERM);
        let body = self
            .body
            .get(..length)
            .ok_or(Fault::sheet(Flaw::CutShort, self.offset))?;
        let (heads, terms) = body.split_at(self.count * HEAD);
        let items = heads.as_chunks().0.iter().zip(terms.as_chunks().0);
        for (item, (head, term)) in items.enumerate() {
            call(head, term).map_err(|refusal| Fault::book(refusal, self.offset, item))?;
        }
        Ok(SECTION_START + length)
    }
}

fn u32_at(bytes: &[u8], at: usize) -> u32 {
    u32::from_le_bytes(bytes[at..at + 4].try_into().unwrap())
}

fn u64_at(bytes: &[u8], at: usize) -> u64 {
    u64::from_le_bytes(bytes[at..at + 8].try_into().unwrap())
}
