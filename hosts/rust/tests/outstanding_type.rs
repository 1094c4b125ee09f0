//! The safe table of outstanding requests: what it holds, shows and compares, and the replies that it gives.
use tushalets::numbers::{refusals, types};
use tushalets::{read_reply, Outstanding, Received, Refusal, Reply, Success};

const ID: u32 = 0x8102_03f4;

/// A reply with two names.
const NAMES_REPLY: [u8; 24] =
    [0x81, 0x02, 0x03, 0xf4, types::READDIR_REPLY, 0, 0, 0, 0, 0, 0, 0, 2, 0, 0, 0, 1, b'a', 0, 0, 0, 2, b'b', b'c'];

/// Bytes from hex digits behind the id of all messages here.
fn message(hex: &str) -> Vec<u8> {
    let digits: String = hex.split_whitespace().collect();
    let bytes = (0..digits.len()).step_by(2).map(|at| u8::from_str_radix(&digits[at..at + 2], 16).unwrap());
    ID.to_be_bytes().into_iter().chain(bytes).collect()
}

/// A table with these ids and types, entered in this order.
fn with(requests: &[(u32, u8)]) -> Outstanding {
    let mut outstanding = Outstanding::new();
    for (id, type_number) in requests {
        assert_eq!(outstanding.enter(*id, *type_number), Ok(()));
    }
    outstanding
}

fn refusal(number: u8, place: usize) -> Refusal {
    Refusal { number, place }
}

#[test]
fn a_new_table_is_empty() {
    static NEW: Outstanding = Outstanding::new();
    assert_eq!((NEW.len(), NEW.is_empty(), NEW.type_of(0)), (0, true, None));
    assert_eq!(Outstanding::default(), NEW);
    assert_eq!(Outstanding::CAPACITY, 64);
}

#[test]
fn it_holds_as_many_as_it_says() {
    let mut outstanding = Outstanding::new();
    for id in 0..Outstanding::CAPACITY as u32 {
        assert_eq!(outstanding.enter(id, types::READ), Ok(()));
        assert_eq!((outstanding.len(), outstanding.is_empty()), (id as usize + 1, false));
    }
    assert_eq!(outstanding.enter(ID, types::READ), Err(refusal(refusals::TABLE_FULL, 0)));
    assert_eq!(outstanding.enter(0, types::READ), Err(refusal(refusals::ID_OUTSTANDING, 0)));
    assert_eq!(outstanding.enter(0, types::REPLY), Err(refusal(refusals::UNEXPECTED_TYPE, 0)));
    outstanding.clear();
    assert!(outstanding.is_empty());
    assert_eq!(outstanding.enter(ID, types::READ), Ok(()));
}

/// A type above those of the methods is one that a request can have.
#[test]
fn types_are_those_that_were_entered() {
    let entered = [(0, 0), (u32::MAX, types::GETCREDS), (ID, 0x7f), (1, types::ACCESS)];
    let outstanding = with(&entered);
    for (id, type_number) in entered {
        assert_eq!(outstanding.type_of(id), Some(type_number));
    }
    assert_eq!((outstanding.type_of(2), outstanding.len()), (None, entered.len()));
}

#[test]
fn replies_are_those_of_the_reader() {
    let rows = [
        (types::OPEN, "8b 00000000 0000000000000005"),
        (types::READ, "90 00000002 00000002 ff00"),
        (types::READLINK, "83 00000000 00000003 2fc3a4 ee"),
        (types::RENAME, "86 fffffffe"),
        (types::GETCREDS, "97 00000004 75736572"),
        (types::STATFS, "80"),
    ];
    for (request, hex) in rows {
        let mut outstanding = with(&[(1, request), (ID, request)]);
        let message = message(hex);
        let expected = read_reply(&message);
        assert_eq!(expected.as_ref().map(|received| received.id), Ok(ID), "{hex}");
        assert_eq!(outstanding.arrive(&message), expected, "{hex}");
        assert_eq!(outstanding, with(&[(1, request)]), "{hex}");
    }
}

/// A reply is part of its message, not of the table.
#[test]
fn a_reply_outlives_the_table() {
    let received = with(&[(ID, types::READDIR)]).arrive(&NAMES_REPLY).unwrap();
    let Received { id: ID, known: 24, body: Reply::Success { result: 0, success: Success::Readdir(names) } } = received
    else {
        panic!("{received:?}");
    };
    assert_eq!(names.collect::<Vec<_>>(), ["a", "bc"]);
}

#[test]
fn a_refused_reply_changes_nothing() {
    let before = with(&[(ID, types::READ), (1, types::OPEN)]);
    let rows = [
        (message(""), 1, 0, "truncated header"),
        (message("98"), 3, 4, "unexpected type"),
        (message("90 00000002 00000001 ff"), 6, 5, "data length mismatch"),
        (vec![0, 0, 0, 2, types::UNKNOWN_RESPONSE], 12, 0, "id not outstanding"),
        (message("8b 00000000 0000000000000005"), 13, 0, "type mismatch"),
    ];
    for (message, number, place, name) in rows {
        let mut outstanding = before.clone();
        assert_eq!(outstanding.arrive(&message), Err(refusal(number, place)));
        assert_eq!(refusal(number, place).to_string(), format!("refused {number} at {place}: {name}"));
        assert_eq!(outstanding, before, "{name}");
    }
}

#[test]
fn every_refusal_has_a_name() {
    let names = [
        (refusals::ID_OUTSTANDING, 10, "id outstanding"),
        (refusals::TABLE_FULL, 11, "table full"),
        (refusals::ID_NOT_OUTSTANDING, 12, "id not outstanding"),
        (refusals::TYPE_MISMATCH, 13, "type mismatch"),
        (refusals::UNSOUND_TABLE, 20, "unsound table"),
    ];
    for (named, number, name) in names {
        assert_eq!((named, refusal(number, 0).name()), (number, name));
    }
}

/// The order of entering does not count, also where it left the records in other places.
#[test]
fn tables_are_compared_by_what_is_outstanding() {
    let table = with(&[(1, types::OPEN), (2, types::READ)]);
    assert_eq!(with(&[(2, types::READ), (1, types::OPEN)]), table);
    let mut other = with(&[(ID, types::GETCREDS), (2, types::READ), (1, types::OPEN)]);
    assert_ne!(other, table);
    assert!(other.arrive(&message("97 00000000")).is_ok());
    assert_eq!(other, table);

    assert_ne!(with(&[(1, types::OPEN)]), table);
    assert_ne!(with(&[(1, types::OPEN), (2, types::WRITE)]), table);
    assert_ne!(with(&[(1, types::OPEN), (3, types::READ)]), table);
    assert_ne!(Outstanding::new(), table);
}

#[test]
fn a_clone_is_a_table_of_its_own() {
    let table = with(&[(1, types::OPEN)]);
    let mut clone = table.clone();
    assert_eq!(clone.enter(2, types::READ), Ok(()));
    assert_eq!((table.len(), clone.len()), (1, 2));
}

#[test]
fn ids_and_types_are_shown() {
    assert_eq!(format!("{:?}", Outstanding::new()), "{}");
    let table = with(&[(u32::MAX, 0x7f), (0, 0), (ID, types::READ)]);
    assert_eq!(format!("{table:?}"), format!("{{4294967295: 127, 0: 0, {ID}: 16}}"));
}

#[test]
fn it_crosses_threads() {
    fn is_shared<T: Send + Sync + Clone>() {}
    is_shared::<Outstanding>();
}
