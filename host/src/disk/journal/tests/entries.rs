use super::scene::{Scene, HEADER};
use crate::disk::journal::entry::{
    encode, encode_parts, is_cut_off, seal, Content, Entry, Numbers,
};
use crate::disk::journal::header::{new_salt, Header};
use crate::disk::journal::{Call, JournalErrorKind};

const SALT: u64 = 7;

/// A call of each kind, with different numbers.
const CALLS: [Call<'static>; 9] = [
    Call::Begin { n: 64 },
    Call::Put {
        ticket: 1,
        i: 2,
        bytes: &[9; 4_096],
    },
    Call::Write {
        line: 15,
        ticket: u64::MAX,
        first: 4_095,
    },
    Call::Append { line: 3, ticket: 4 },
    Call::Weave {
        ticket: 5,
        count: 1 << 40,
    },
    Call::Publish {
        line: 6,
        minute: 10_079,
    },
    Call::SetWindows {
        text: b"600,660\n10000,30\n",
    },
    Call::SetWindows { text: b"" },
    Call::Branch {
        line: 7,
        version: 8,
    },
];

fn sealed(content: &Content<'_>, number: u64) -> Vec<u8> {
    let mut bytes = Vec::new();
    encode(content, number, &mut bytes);
    seal(&mut bytes, SALT);
    bytes
}

#[test]
fn every_call_is_read_as_it_was_written() {
    let calls = CALLS.iter().map(|call| Content::Call(*call));
    for (number, content) in (1..).zip(calls.chain([Content::Synced, Content::Ended])) {
        let mut bytes = sealed(&content, number);
        let length = bytes.len();
        bytes.extend([0xe7; 40]);
        let entry = Entry::at_front(&bytes, SALT).unwrap();
        assert_eq!((entry.number, entry.length()), (number, length));
        assert_eq!(entry.content(), Ok(content));
        assert!(Entry::at_front(&bytes, SALT + 1).is_none());
        for cut in 0..length {
            assert!(Entry::at_front(&bytes[..cut], SALT).is_none());
            assert!(is_cut_off(&bytes[..cut]), "{cut} of {length}");
        }
    }
}

/// A call may have five arguments. Those of the calls that there are have three, as ever: a journal of theirs is the same as before.
#[test]
fn an_entry_has_three_to_five_arguments() {
    let raw = |numbers: &Numbers, bytes: &[u8]| {
        let mut entry = Vec::new();
        encode_parts(numbers, bytes, 7, &mut entry);
        seal(&mut entry, SALT);
        entry
    };
    // 99 stands for a call that is not known here
    for (numbers, length) in [
        ([99, 1, 2, 3, 4, 5], 24 + 48),
        ([99, 1, 2, 3, 0, u64::MAX], 24 + 48),
        ([99, 0, 0, 0, 4, 0], 24 + 48),
        ([99, 1, 2, 3, 0, 0], 24 + 32),
    ] {
        let bytes = raw(&numbers, &[]);
        assert_eq!(bytes.len(), length);
        let entry = Entry::at_front(&bytes, SALT).unwrap();
        assert_eq!(entry.parts(), Ok((numbers, &[][..])));
        assert_eq!((entry.number, entry.content()), (7, Err(99)));
    }
    // with four, the fifth is 0
    let four = &[99, 1, 2, 3, 4].map(u64::to_le_bytes).concat()[8..];
    let mut bytes = raw(&[99, 1, 2, 3, 0, 0], &four[24..]);
    let entry = Entry::at_front(&bytes, SALT).unwrap();
    assert_eq!(entry.parts(), Ok(([99, 1, 2, 3, 4, 0], &[][..])));
    // a page stands behind three; what has none has whole numbers, and no more than five
    bytes = raw(&[2, 1, 2, 3, 0, 0], &[9; 16]);
    let entry = Entry::at_front(&bytes, SALT).unwrap();
    assert_eq!(entry.parts(), Ok(([2, 1, 2, 3, 0, 0], &[9; 16][..])));
    for more in [1, 7, 9, 24] {
        bytes = raw(&[1, 1, 2, 3, 0, 0], &vec![9; more]);
        assert_eq!(Entry::at_front(&bytes, SALT).unwrap().content(), Err(1));
    }
    // and the calls of three have no others
    bytes = raw(&[1, 1, 2, 3, 0, 1], &[]);
    assert_eq!(Entry::at_front(&bytes, SALT).unwrap().content(), Err(1));
}

#[test]
fn entries_are_sealed_one_by_one_however_they_are_written() {
    let (mut together, mut apart) = (Vec::new(), Vec::new());
    for (number, call) in (1..).zip(&CALLS) {
        encode(&Content::Call(*call), number, &mut together);
        apart.extend(sealed(&Content::Call(*call), number));
    }
    seal(&mut together, SALT);
    assert_eq!(together, apart);
}

#[test]
fn an_unknown_kind_and_a_wrong_length_are_told() {
    let mut bytes = sealed(&Content::Synced, 1);
    bytes[24] = 9;
    seal(&mut bytes, SALT);
    let entry = Entry::at_front(&bytes, SALT).unwrap();
    assert_eq!(entry.content(), Err(9));
    for length in [0, 31, 4_096 + 33, u32::MAX] {
        let mut bytes = vec![0; 5_000];
        encode(&Content::Synced, 1, &mut bytes);
        bytes[4..8].copy_from_slice(&length.to_le_bytes());
        assert!(Entry::at_front(&bytes, SALT).is_none());
    }
}

#[test]
fn a_header_is_read_as_it_was_written() {
    let bytes = HEADER.to_bytes();
    assert_eq!(Header::of(&bytes, 3), Ok(Some(HEADER)));
    assert_eq!(
        Header::of(&bytes, 4).unwrap_err().kind,
        JournalErrorKind::Generation(3)
    );
    // one that was only being begun
    for cut in 0..bytes.len() {
        assert_eq!(Header::of(&bytes[..cut], 3), Ok(None));
    }
    assert_eq!(Header::of(&[0; 64], 3), Ok(None));
    assert_eq!(
        Header::of(&[0; 65], 3).unwrap_err().kind,
        JournalErrorKind::Header
    );
    assert_ne!(new_salt(), new_salt());
}

#[test]
fn a_header_with_any_byte_damaged_is_an_error_where_entries_follow() {
    let scene = Scene::new(1, 1);
    for at in 0..64 {
        let mut bytes = scene.bytes.clone();
        bytes[at] ^= 0x10;
        let error = Header::of(&bytes, 3).unwrap_err();
        assert_eq!(error.kind, JournalErrorKind::Header);
        let words = "journal-3 at byte 0: the header is damaged or missing";
        assert_eq!(error.to_string(), words);
    }
}
