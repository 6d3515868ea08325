//! Document 02, W3: a kind's status changes at multiples of 900 seconds, or goes off at a fault, else 26.

use reference::line::row_lines;
use reference::maker::book_bytes;
use reference::plant::{Plant, FAULT};
use reference::program::output_of;
use reference::record::Record;

fn with_status(status: u8) -> Record {
    Record {
        status,
        ..Record::default()
    }
}

fn take(plant: &mut Plant, record: Record) -> Result<(), u8> {
    let accepted = plant.consider(&record.write())?;
    plant.second(accepted, 0, 0);
    Ok(())
}

/// A plant after so many seconds, all with this status.
fn after(seconds: usize, status: u8) -> Plant {
    let mut plant = Plant::default();
    for _ in 0..seconds {
        take(&mut plant, with_status(status)).expect("a status that stays");
    }
    plant
}

/// Every status after every other, at multiples of 900 and beside them.
#[test]
fn every_change() {
    for second in [1, 2, 450, 899, 900, 901, 1_799, 1_800] {
        for before in 0..16u8 {
            let plant = after(second, before);
            for now in 0..16u8 {
                let mut allowed = true;
                for kind in 0..3 {
                    let was = before >> kind & 1 == 1;
                    let is = now >> kind & 1 == 1;
                    let fault = now >> 3 == 1;
                    if second % 900 != 0 && ((!was && is) || (was && !is && !fault)) {
                        allowed = false;
                    }
                }
                let wanted = if allowed { Ok(()) } else { Err(26) };
                assert_eq!(take(&mut plant.clone(), with_status(now)), wanted, "{} to {} at {}", before, now, second);
            }
        }
    }
}

#[test]
fn second_0_is_free() {
    for status in 0..16 {
        assert_eq!(take(&mut Plant::default(), with_status(status)), Ok(()));
    }
    for status in [16, 17, 24, 32, 128, 255] {
        assert_eq!(take(&mut Plant::default(), with_status(status)), Err(6));
    }
}

/// After 6, before 7; and 11 comes after it.
#[test]
fn its_place_in_the_order() {
    let plant = after(1, 7);
    let record = |status: u8, call: u8| Record {
        fcr_held: 400,
        deviation: 50,
        status,
        call,
        ..Record::default()
    };
    let refused = |record: Record| plant.consider(&record.write()).err();
    assert_eq!(refused(record(16, 2)), Some(6));
    assert_eq!(refused(record(6, 2)), Some(26));
    assert_eq!(refused(record(7, 2)), Some(7));
    assert_eq!(refused(record(6, 0)), Some(26));
    assert_eq!(refused(record(6 | FAULT, 0)), Some(11), "its setpoint 0 as ever");
}

/// A refused second leaves the last status as it was.
#[test]
fn a_refused_second_changes_nothing() {
    let mut plant = after(1, 3);
    let before = plant.clone();
    assert_eq!(take(&mut plant, with_status(2)), Err(26));
    assert_eq!(take(&mut plant, with_status(7)), Err(26));
    assert_eq!(plant, before);
    assert_eq!(take(&mut plant, with_status(2 | FAULT)), Ok(()));
    assert_eq!(take(&mut plant, with_status(3 | FAULT)), Err(26));
    assert_eq!(take(&mut plant, with_status(2)), Ok(()));
}

/// Bit 3 alone: no kind on, all open. With the kinds: they share as without it.
#[test]
fn bit_3_is_never_a_kind() {
    let unit = |status: u8| Record {
        measured: 7,
        fcr_held: 400,
        afrr_held_up: 1_000,
        status,
        ..Record::default()
    };
    let rows = |status: u8| output_of(&book_bytes(0, &[[unit(status), Record::default(), Record::default()]]), row_lines);
    assert!(rows(8).starts_with("0 U 0 0 0 0 0 0 0 0 0 0 0 0 0 0 0 7\n"));
    for status in 0..8 {
        assert_eq!(rows(status), rows(status | FAULT));
    }
}

/// Each plant by itself: U, A and B.
#[test]
fn each_plant() {
    for plant in 0..3 {
        let mut seconds = [[with_status(1); 3]; 3];
        seconds[1][plant].status = 0;
        assert!(output_of(&book_bytes(0, &seconds), row_lines).ends_with("refused 26 at 1\n"));
    }
}

/// A state that no second can leave: mFRR off and a call, whose value is 0 in its own second. In the next one the value
/// is 1 kW: off gives 25, on gives 26, and a new call starts at that value.
#[test]
fn a_state_that_no_second_can_leave() {
    let mut plant = after(1, 0);
    let call = |target: i32, end: u32, status: u8| Record {
        mfrr_target: target,
        delivery_end: end,
        call: 1,
        status,
        ..Record::default()
    };
    assert_eq!(take(&mut plant, call(900, 1_800, 0)), Ok(()));
    for status in 0..16u8 {
        let wanted = if status & 7 == 0 { Err(25) } else { Err(26) };
        assert_eq!(take(&mut plant.clone(), with_status(status)), wanted);
        assert_eq!(take(&mut plant.clone(), call(0, 1_800, status)), wanted);
    }
}

/// The same where a fault takes mFRR off while a ramp passes 0: a call to 900 kW at 0, one to -100 kW at 100.
#[test]
fn a_ramp_through_zero() {
    let mut plant = Plant::default();
    for now in 0..550 {
        let mut record = with_status(4);
        if now == 0 || now == 100 {
            record.call = 1;
            (record.mfrr_target, record.delivery_end) = if now == 0 { (900, 900) } else { (-100, 1_800) };
        }
        take(&mut plant, record).expect("mFRR is on");
    }
    assert_eq!(plant.clone().mfrr.setpoint(549), 1);
    assert_eq!(take(&mut plant, with_status(FAULT)), Ok(()));
    for _ in 551..555 {
        assert_eq!(take(&mut plant, with_status(0)), Ok(()));
    }
    assert_eq!(take(&mut plant, with_status(0)), Err(25));
    assert_eq!(take(&mut plant, with_status(4)), Err(26));
}
