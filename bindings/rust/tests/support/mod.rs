//! The kept lists: pages with the answers of the Rust crate promql-parser (oracle/KEPT.md has the format).

/// A list, and beside it a word for each of its entries: those of the check with the function table, of the check that
/// follows the operators document, of the checks with the functions of the older and of the newer server generation,
/// and the number of the generations that accept the entry's query.
struct List {
    pages: &'static [u8],
    beside: [&'static [u8]; 5],
}

/// The list, and the later pages, which are for the two server generations.
const LISTS: [List; 2] = [
    List {
        pages: include_bytes!("../../../../crates/vectors/stdin"),
        beside: [
            include_bytes!("../../../../oracle/kept/table"),
            include_bytes!("../../../../oracle/kept/operators"),
            include_bytes!("../../../../oracle/kept/older"),
            include_bytes!("../../../../oracle/kept/newer"),
            include_bytes!("../../../../oracle/kept/generations"),
        ],
    },
    List {
        pages: include_bytes!("../../../../oracle/kept/later/pages"),
        beside: [
            include_bytes!("../../../../oracle/kept/later/table"),
            include_bytes!("../../../../oracle/kept/later/operators"),
            include_bytes!("../../../../oracle/kept/later/older"),
            include_bytes!("../../../../oracle/kept/later/newer"),
            include_bytes!("../../../../oracle/kept/later/generations"),
        ],
    },
];

/// Names with the answers of the call for signatures.
const SIGNATURES: &[u8] = include_bytes!("../../../../oracle/kept/signatures");

/// A page and what the Rust answers. Not every test asks for all of it.
#[allow(dead_code)]
pub struct Entry {
    pub page: Vec<u8>,
    /// The word of check.
    pub word: u64,
    /// The word of the check with the function table.
    pub table: u64,
    /// The word of the check that follows the operators document.
    pub operators: u64,
    /// The words of the checks of the two server generations.
    pub older: u64,
    pub newer: u64,
    /// The number of those that accept the page.
    pub generations: u64,
    /// Where the label of 19 starts, and its length.
    pub label: (usize, usize),
    pub copy: Vec<u8>,
    pub canonical: Vec<u8>,
    pub split: Vec<u8>,
}

fn word(list: &mut &[u8]) -> u64 {
    let (word, rest) = list.split_first_chunk().expect("eight bytes are left");
    *list = rest;
    u64::from_le_bytes(*word)
}

fn bytes(list: &mut &[u8]) -> Vec<u8> {
    let (length, rest) = list.split_first_chunk().expect("four bytes are left");
    let (bytes, rest) = rest.split_at(u32::from_le_bytes(*length) as usize);
    *list = rest;
    bytes.to_vec()
}

/// The next entry of the list, and the next word of each file beside it.
fn entry(list: &mut &[u8], beside: &mut [&[u8]; 5]) -> Entry {
    let page = bytes(list);
    let outcome = word(list);
    let label = word(list);
    let [table, operators, older, newer, generations] = beside.each_mut().map(word);
    Entry {
        page,
        word: outcome,
        table,
        operators,
        older,
        newer,
        generations,
        label: ((label >> 8) as usize, (label & 0xff) as usize),
        copy: bytes(list),
        canonical: bytes(list),
        split: bytes(list),
    }
}

/// Both lists, one behind the other.
pub fn entries() -> Vec<Entry> {
    let mut entries = Vec::new();
    for List {
        mut pages,
        mut beside,
    } in LISTS
    {
        while !pages.is_empty() {
            entries.push(entry(&mut pages, &mut beside));
        }
        assert_eq!(beside.concat().len(), 0, "a word for each entry");
    }
    assert!(entries.len() > 3000, "the lists are whole");
    entries
}

/// A name and what the call for signatures answers that is lent eight bytes.
#[allow(dead_code)]
pub struct Signature {
    pub name: Vec<u8>,
    pub word: u64,
    pub written: Vec<u8>,
}

/// All names.
#[allow(dead_code)]
pub fn signatures() -> Vec<Signature> {
    let mut list = SIGNATURES;
    let mut signatures = Vec::new();
    while !list.is_empty() {
        signatures.push(Signature {
            name: bytes(&mut list),
            word: word(&mut list),
            written: bytes(&mut list),
        });
    }
    assert!(signatures.len() > 1000, "the names are whole");
    signatures
}
