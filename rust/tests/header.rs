//! Header and wrapper have the same numbers.
use depot::numbers::*;
use depot::Refusal;

/// The value of a macro of `include/depot.h` that is one number.
fn defined(name: &str) -> u64 {
    let header = include_str!("../../include/depot.h");
    let line = header.lines().find(|line| line.split_whitespace().take(2).eq(["#define", name]));
    let value = line.and_then(|line| line.split_whitespace().nth(2));
    value.and_then(|value| value.parse().ok()).unwrap_or_else(|| panic!("{name} is no number of the header"))
}

#[test]
fn sizes_are_the_same() {
    assert_eq!(defined("DEPOT_STORE_SIZE"), STORE_SIZE as u64);
    assert_eq!(defined("DEPOT_REPLY_SIZE"), REPLY_SIZE as u64);
    assert_eq!(defined("DEPOT_BLOCK_SIZE"), BLOCK_SIZE as u64);
    assert_eq!(defined("DEPOT_RECORD_SIZE"), RECORD_SIZE as u64);
    assert_eq!(defined("DEPOT_DESKS"), u64::from(DESKS));
}

/// The names of the header's numbers stand in the order in which the wrapper takes them apart.
#[test]
fn fields_are_the_same() {
    let timer = ["HOUR", "MINUTE", "MILLISECONDS"];
    let record = ["UID", "HOUR", "MINUTE", "MILLISECONDS", "MASK"];
    let fields = [
        ("TIMER", TIMER_FIELDS, &timer[..]),
        ("SIZES", SIZES_FIELDS, &["TAB_SIZE", "TAB_START", "TAB_LEN"]),
        ("RECORD", RECORD_FIELDS, &record),
    ];
    for (what, count, names) in fields {
        assert_eq!((defined(&format!("DEPOT_{what}_FIELDS")), names.len()), (count as u64, count));
        for (place, name) in names.iter().enumerate() {
            assert_eq!(defined(&format!("DEPOT_{what}_{name}")), place as u64);
        }
    }
}

#[test]
fn codes_are_the_same() {
    assert_eq!(defined("DEPOT_DONE"), DONE);
    assert_eq!(defined("DEPOT_RECORDED"), RECORDED);
    assert_eq!(defined("DEPOT_LOST"), LOST);
    let refusals = [
        ("DEPOT_UNSOUND", Refusal::Unsound),
        ("DEPOT_SMALL_BUFFER", Refusal::SmallBuffer),
        ("DEPOT_NO_OCTETS", Refusal::NoOctets),
        ("DEPOT_TOO_SHORT", Refusal::TooShort),
        ("DEPOT_TOO_LONG", Refusal::TooLong),
        ("DEPOT_LENGTH_DIFFERS", Refusal::LengthDiffers),
        ("DEPOT_WRONG_CHECK", Refusal::WrongCheck),
        ("DEPOT_NO_DESK", Refusal::NoDesk),
        ("DEPOT_OUT_OF_RANGE", Refusal::OutOfRange),
        ("DEPOT_NO_ROOM", Refusal::NoRoom),
        ("DEPOT_NOT_THE_REPLY", Refusal::NotTheReply),
    ];
    for (name, refusal) in refusals {
        assert_eq!(defined(name), u64::from(refusal.number()));
    }
}
