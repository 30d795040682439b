//! States that no call made: "unused places of a monitor hold 0" after each
//! accepted begin or record, and a refused call alters nothing; needs and
//! conflicts that a hand has written are refused as 20 or used as they stand.

use second::field::{Field, CARRIED};
use second::monitor::Monitor;
use second::stored::Stored;
use second::Refusal;

/// Two events, the second needs the first; nodes true and "previous true".
const SHEET: [u8; 22] =
    [0xB4, 0x4D, 1, 1, 2, 0xB4, 0x4D, 2, 2, 0, 1, 0xB4, 0x4D, 5, 1, 0, 0xB4, 0x4D, 5, 2, 6, 0];

/// A monitor with two sessions, and something poked into every unused place.
fn littered() -> Monitor {
    let mut monitor = Monitor::default();
    assert_eq!(monitor.sheet(SHEET.to_vec()), Ok(()));
    assert_eq!((monitor.begin(), monitor.begin()), (Ok(1), Ok(2)));
    monitor.poke(|state| {
        state.sets[2..].fill(7);
        state.rows[2..].fill(7);
    });
    monitor
}

fn unused(state: &Stored) -> Vec<u64> {
    let rows = state.rows[state.kept as usize..].iter().copied();
    let sets = state.sets[state.kept as usize..].iter().map(|&set| u64::from(set));
    rows.chain(sets).collect()
}

fn clean(monitor: &Monitor) -> bool {
    unused(&monitor.snapshot()).iter().all(|&place| place == 0)
}

/// Every field of the stored state, place by place.
fn whole(monitor: &Monitor) -> Vec<u64> {
    let state = monitor.snapshot();
    let places = |field: Field| (0..field.places()).map(move |place| (field, place));
    let all = Field::ALL.into_iter().flat_map(places);
    all.map(|(field, place)| field.get(&state, place)).collect()
}

#[test]
fn accepted_calls_leave_unused_places_zero() {
    let mut monitor = littered();
    assert_eq!(monitor.begin(), Ok(3));
    assert!(clean(&monitor));
    assert_eq!((monitor.snapshot().sets[2], monitor.snapshot().rows[2]), (0, 3));

    let mut monitor = littered();
    assert_eq!(monitor.record(2, 0), Ok(()));
    assert!(clean(&monitor));

    // Closes session 1, which is let go.
    let mut monitor = littered();
    monitor.poke(|state| state.sets[0] = 1);
    assert_eq!(monitor.record(1, 1), Ok(()));
    assert_eq!(monitor.counts(), Ok((2, 1, 1)));
    assert!(clean(&monitor));
}

#[test]
fn every_other_call_leaves_the_state_alone() {
    let mut monitor = littered();
    monitor.poke(|state| Field::Row.put(state, CARRIED, 9));
    let before = whole(&monitor);
    assert_eq!(monitor.record(1, 1), Err(26));
    assert_eq!(monitor.record(3, 0), Err(21));
    assert_eq!(monitor.check(), Ok((true, 3)));
    assert_eq!(monitor.counts(), Ok((2, 0, 2)));
    assert_eq!(monitor.save(&mut [0; 40]), Ok(33));
    assert_eq!(monitor.save(&mut [0; 32]), Err(41));
    assert_eq!(monitor.restore(&[0; 19]), Err(42));
    assert!(whole(&monitor) == before);

    monitor.poke(|state| (state.kept, state.total) = (64, 64));
    let before = whole(&monitor);
    assert_eq!(monitor.begin(), Err(27));
    assert!(whole(&monitor) == before);
}

/// The answer of counts once a value stands at a place of the stored sheet.
fn counts_with(field: Field, place: usize, value: u64) -> Result<(u32, u32, u64), Refusal> {
    let mut monitor = littered();
    monitor.poke(|state| field.put(state, place, value));
    monitor.counts()
}

#[test]
fn needs_lie_below_their_event_and_conflicts_among_the_others() {
    let fine = Ok((2, 0, 2));
    for (value, told) in [(0, fine), (1, fine), (2, Err(20)), (3, Err(20)), (1 << 31, Err(20))] {
        assert_eq!(counts_with(Field::Needs, 1, value), told);
        assert_eq!(counts_with(Field::Conflicts, 1, value), told);
    }
    assert_eq!(counts_with(Field::Needs, 0, 1), Err(20));
    assert_eq!(counts_with(Field::Conflicts, 0, 2), fine);
    assert_eq!(counts_with(Field::Conflicts, 0, 4), Err(20));
    for field in [Field::Needs, Field::Conflicts] {
        assert_eq!(counts_with(field, 2, u64::MAX), fine);
        assert_eq!(counts_with(field, 31, u64::MAX), fine);
        assert_eq!(counts_with(field, 1, 1 << 32), fine);
    }
}

#[test]
fn needs_and_conflicts_are_used_as_they_stand() {
    // No cause is left, and 1 conflicts with 0, but 0 not with 1.
    let mut monitor = littered();
    monitor.poke(|state| Field::Needs.put(state, 1, 0));
    monitor.poke(|state| Field::Conflicts.put(state, 1, 1));
    assert_eq!(monitor.record(2, 1), Ok(()));
    assert_eq!(monitor.record(2, 0), Ok(()));
    assert_eq!(monitor.record(2, 1), Err(23));
    // {0} is closed, so both sessions are let go.
    assert_eq!(monitor.record(1, 0), Ok(()));
    assert_eq!(monitor.counts(), Ok((2, 2, 0)));
}
