//! What is answered to names (document 02, No. 2): signatures as they stand in a call, 37 for all other names, and 5.

use oracle::answer::Outcome;
use oracle::functions::{self, signatures};
use oracle::page::read::Reader;
use oracle::page::record::{Record, Signature};

fn refused(number: u8) -> (u64, Vec<u8>) {
    let refused = Outcome::Refused { number, record: 0 };
    (refused.word(0), Vec::new())
}

/// A call of so many arguments, with these bytes between the name and their count.
fn read<'a>(record: &'a mut Vec<u8>, name: &[u8], signature: &[u8], count: u8) -> Signature<'a> {
    *record = [&[11, name.len() as u8], name, signature, &[count]].concat();
    match Reader::new(record).record() {
        Ok(Record::Call {
            signature,
            arguments,
        }) if arguments == usize::from(count) => signature,
        other => panic!("{other:?}"),
    }
}

/// What is written of a name reads, between the name and a count, as a call with the table's signature.
#[test]
fn signatures_are_read_back() {
    for known in signatures() {
        let name = known.name.text.as_bytes();
        let (word, written) = functions::answer(name, 8);
        let bytes = written.len() as u64;
        assert_eq!((word >> 2, word & 3), (bytes, known.result.number()));
        let record = &mut Vec::new();
        let signature = read(record, name, &written, 3);
        assert_eq!(signature.name.text, known.name.text);
        assert_eq!(signature.kinds, known.kinds);
        assert_eq!(
            (signature.extra, signature.result),
            (known.extra, known.result)
        );
    }
}

/// Too little room is 5, whatever more room is as good as enough.
#[test]
fn room_decides_about_5_alone() {
    for known in signatures() {
        let name = known.name.text.as_bytes();
        let whole = functions::answer(name, 8);
        for lent in 0..=10 {
            let expected = match lent < whole.1.len() {
                true => refused(5),
                false => whole.clone(),
            };
            assert_eq!(functions::answer(name, lent), expected);
        }
    }
}

#[test]
fn other_names_are_unknown_whatever_the_room() {
    let long = b"abs".repeat(100);
    let accent = "é".as_bytes();
    for name in [
        b"".as_slice(),
        b"Abs",
        b"ab",
        b"abs\0",
        b"abs\xff",
        accent,
        &long,
    ] {
        for lent in [0, 8, 10] {
            assert_eq!(functions::answer(name, lent), refused(37));
        }
    }
}
