//! Document 02, W9: a sheet of figures with a fresh book, or 30; and what `reference_sheet` prints.

mod full_case;

use full_case::full_case;
use reference::afrr::gradient;
use reference::book::Book;
use reference::cut::moved_back;
use reference::fcr::weight;
use reference::line::row_lines;
use reference::maker::sheet_contents::counted;
use reference::maker::sheets::{make_input, seeds_for_all, with};
use reference::maker::{book_bytes, second_bytes};
use reference::plant::{Kind, Plant, Row};
use reference::power::{Band, Ratio};
use reference::program::{self, for_each_second};
use reference::record::Record;
use reference::sheet::{Sheet, LENGTH, RANGES, SPARE};
use reference::under_sheet::{output_of, run};
use std::io::{self, Read};

const DEFAULT: [i64; 6] = [5, 5, 20, 1_000, 15, 30];

/// The row of a plant's next second, on its own.
fn next(plant: &mut Plant, record: Record) -> Row {
    let accepted = plant.consider(&record.write()).expect("an accepted second");
    plant.second(accepted, record.measured as i64, record.working_point as i64)
}

/// Setpoint and band.
fn figures(kind: Kind) -> (i64, i64, i64) {
    (kind.setpoint, kind.band.low, kind.band.high)
}

#[test]
fn the_default_sheet() {
    assert_eq!(Sheet::default().figures(), DEFAULT);
    assert_eq!(Book::default(), Book::open(Sheet::default()).expect("a sound sheet"));
    assert_eq!(Plant::default().sheet, Sheet::default());
}

/// "30 when a figure is outside its range": every end of every range, and one beside it.
#[test]
fn number_30_on_both_sides_of_each_range() {
    let lowest_and_highest = [(0, 50), (0, 50), (0, 50), (1, 100_000), (5, 15), (1, 60)];
    for (figure, (lowest, highest)) in lowest_and_highest.into_iter().enumerate() {
        let opened = |value: i64| Book::open(with(&Sheet::default(), figure, value)).map(|book| book.unit.sheet.figures()[figure]);
        assert_eq!(opened(lowest), Ok(lowest));
        assert_eq!(opened(highest), Ok(highest));
        assert_eq!(opened(lowest - 1), Err(30), "{}", RANGES[figure].0);
        assert_eq!(opened(highest + 1), Err(30), "{}", RANGES[figure].0);
    }
}

/// "Past the first the weight is d × (w - a) / w, up to age w": the whole weight at age r, the second formula from r + 1 on.
#[test]
fn weights_at_the_reaction_time() {
    for r in 5..=15 {
        let sheet = with(&Sheet::default(), 4, r);
        let w = 2 * r;
        for age in 0..=r {
            assert_eq!(weight(7, age, &sheet), Ratio::from(7), "age {} of {}", age, r);
        }
        for age in r + 1..=w {
            assert_eq!(weight(7, age, &sheet), Ratio::new(7 * (w - age), w), "age {} of {}", age, r);
        }
        assert_eq!(weight(7, w, &sheet), Ratio::from(0));
        assert_eq!(weight(7, w + 1, &sheet), Ratio::from(0));
    }
    assert_eq!(weight(1, 6, &with(&Sheet::default(), 4, 5)), Ratio::new(2, 5));
    assert_eq!(weight(1, 16, &with(&Sheet::default(), 4, 15)), Ratio::new(7, 15));
}

/// One fall from 0 to -1,000 without a floor: the upper tolerance by age.
#[test]
fn fcr_bands_by_age() {
    let at_five: &[(i64, i64)] = &[(0, 1_000), (4, 1_000), (5, 1_000), (6, 400), (7, 300), (8, 200), (9, 100), (10, 0), (11, 0), (30, 0)];
    let at_fifteen: &[(i64, i64)] = &[(0, 1_000), (14, 1_000), (15, 1_000), (16, 466), (17, 433), (29, 33), (30, 0), (31, 0)];
    for (r, wanted) in [(5, at_five), (15, at_fifteen)] {
        let mut plant = Plant::open(Sheet { fcr_floor: 0, fcr_reaction: r, ..Sheet::default() });
        let record = |deviation: i16| Record { fcr_held: 1_000, deviation, status: 1, ..Record::default() };
        for _ in 0..3 {
            next(&mut plant, record(0));
        }
        let tolerances: Vec<i64> = (0..=40).map(|_| next(&mut plant, record(200)).kinds[0].band.high + 1_000).collect();
        for &(age, tolerance) in wanted {
            assert_eq!(tolerances[age as usize], tolerance, "age {} of {}", age, r);
        }
    }
}

/// "W5's figures are those for 15 seconds, in 540ths": "540 for ages 0 to 15, then 252 at 16, 234 at 17, falling by 18 to 0 at 30".
#[test]
fn the_table_of_w5() {
    for age in 0..=30 {
        let wanted = match age {
            0..=15 => 540,
            16 => 252,
            17 => 234,
            _ => 234 - 18 * (age - 17),
        };
        assert_eq!(weight(1, age, &Sheet::default()).times(540), Ratio::from(wanted), "age {}", age);
    }
    assert_eq!(weight(1, 30, &Sheet::default()), Ratio::from(0));
}

/// "Stands for the 30 in both windows, and the gradient divides by 300 minus it": a single setpoint of 900 kW is in the gradient's
/// window from age q to age 300.
#[test]
fn the_gradients_window() {
    for q in [1, 30, 60] {
        let sheet = Sheet { least_range: 1, afrr_reaction: q, ..Sheet::default() };
        let mut setpoints = vec![0; 1_000];
        setpoints[400] = 900;
        for age in 0..=400 {
            let range = if (q..=300).contains(&age) { 900 } else { 1 };
            assert_eq!(gradient(&setpoints, 400 + age, &sheet), Ratio::new(range, 300 - q), "age {} of {}", age, q);
        }
    }
}

/// A rise of 100 × (300 - q) kW: s(t-q) to s(t-1) hold the lower limit at 0 up to age q - 1, then it comes up by 100 kW a second and is
/// there at age 299, while s(t-300) is still 0.
#[test]
fn the_other_window() {
    for q in [1, 30, 60] {
        let mut plant = Plant::open(Sheet { afrr_floor: 0, least_range: 1, afrr_reaction: q, ..Sheet::default() });
        let step = 100 * (300 - q);
        let record = |setpoint: i64| Record { afrr_setpoint: setpoint as i32, status: 2, ..Record::default() };
        for _ in 0..350 {
            assert_eq!(figures(next(&mut plant, record(0)).kinds[1]), (0, 0, 0));
        }
        for age in 0..=310 {
            let low = (100 * (age - q + 1)).clamp(0, step);
            assert_eq!(figures(next(&mut plant, record(step)).kinds[1]), (step, low, step), "age {} of {}", age, q);
        }
    }
}

/// Floors of 0 and 50 percent, one each for FCR and aFRR; halves of a kW are rounded inward.
#[test]
fn floors() {
    let record = Record { fcr_held: 401, afrr_held_up: 33, afrr_held_down: 303, status: 3, ..Record::default() };
    let bands = |fcr_floor: i64, afrr_floor: i64| {
        let mut plant = Plant::open(Sheet { fcr_floor, afrr_floor, ..Sheet::default() });
        let [fcr, afrr, _] = next(&mut plant, record).kinds;
        (fcr.band.low, fcr.band.high, afrr.band.low, afrr.band.high)
    };
    assert_eq!(bands(0, 0), (0, 0, 0, 0));
    assert_eq!(bands(50, 0), (-200, 200, 0, 0));
    assert_eq!(bands(0, 50), (0, 0, -151, 151));
    assert_eq!(bands(50, 50), (-200, 200, -151, 151));
    assert_eq!(bands(5, 5), (-20, 20, -15, 15));
    assert_eq!(bands(1, 49), (-4, 4, -148, 148)); // 4.01 and 148.47
}

/// Excesses of 0 and 50 percent: "ramping up b, e, 1.2 × e" with 1 and with 1.5, and with 1.33.
#[test]
fn excesses() {
    let bands = |excess: i64, target: i32| {
        let mut plant = Plant::open(Sheet { excess, ..Sheet::default() });
        let call = Record { status: 4, call: 1, mfrr_target: target, delivery_end: 1_800, ..Record::default() };
        let first = next(&mut plant, call).kinds[2];
        let on = Record { status: 4, ..Record::default() };
        let delivering = (1..=901).map(|_| next(&mut plant, on).kinds[2]).last().expect("a second");
        let down = (902..=1_801).map(|_| next(&mut plant, on).kinds[2]).last().expect("a second");
        [first, delivering, down].map(|kind| (kind.band.low, kind.band.high))
    };
    assert_eq!(bands(0, 9_001), [(0, 9_001), (9_001, 9_001), (0, 9_001)]);
    assert_eq!(bands(50, 9_001), [(0, 13_501), (9_001, 13_501), (0, 13_501)]);
    assert_eq!(bands(50, -9_001), [(-13_501, 0), (-13_501, -9_001), (-13_501, 0)]);
    assert_eq!(bands(33, 101), [(0, 134), (101, 134), (0, 134)]); // 134.33
    assert_eq!(bands(20, 9_000), [(0, 10_800), (9_000, 10_800), (0, 10_800)]);
}

/// The excess is in a leftover once: a call of 9,000 kW at 0, one of -100 kW at 10.
#[test]
fn the_excess_of_a_leftover() {
    for (excess, low, high) in [(0, -100, 9_000), (20, -120, 10_800), (50, -150, 13_500)] {
        let mut plant = Plant::open(Sheet { excess, ..Sheet::default() });
        for now in 0..=900 {
            let mut record = Record { status: 4, ..Record::default() };
            if now == 0 {
                (record.call, record.mfrr_target, record.delivery_end) = (1, 9_000, 900);
            }
            if now == 10 {
                (record.call, record.mfrr_target, record.delivery_end) = (1, -100, 1_800);
            }
            let band = next(&mut plant, record).kinds[2].band;
            if now >= 10 {
                assert_eq!(band, Band { low, high }, "second {}", now);
            }
        }
        let after = next(&mut plant, Record { status: 4, ..Record::default() }).kinds[2].band;
        assert_eq!(after, Band { low, high: 100 }, "the leftover's last second is past");
    }
}

/// Setpoint 0 and a limit of 50 kW that loses its floor: it falls by the least range / 270 a second.
#[test]
fn least_ranges() {
    let highs = |least_range: i64| -> Vec<i64> {
        let mut plant = Plant::open(Sheet { afrr_floor: 50, least_range, ..Sheet::default() });
        let record = |held: i32| Record { afrr_held_up: held, status: 2, ..Record::default() };
        let first = next(&mut plant, record(100)).kinds[1].band;
        assert_eq!(first, Band { low: -50, high: 50 });
        let bands = (0..300).map(|_| next(&mut plant, record(0)).kinds[1].band);
        bands.inspect(|band| assert_eq!(band.low, -band.high)).map(|band| band.high).collect()
    };
    let one = highs(1);
    assert_eq!((one[0], one[269], one[270]), (49, 49, 48)); // 50 - 1/270, 49, 49 - 1/270
    assert_eq!(highs(1_000)[..15], [46, 42, 38, 35, 31, 27, 24, 20, 16, 12, 9, 5, 1, 0, 0]);
    assert_eq!(highs(5_000)[..4], [31, 12, 0, 0]);
    assert_eq!(highs(100_000)[..2], [0, 0]);
}

/// The guide's figure 6-6 as docs/FIGURES.md had it before W9: the lower limits of the sheet with 5,000 kW, and those with 1,000.
#[test]
fn figure_6_6_under_both_ranges() {
    let wanted = [
        (5_000, [(-1, -5_000), (0, -4_981), (1, -4_962), (29, -4_444), (30, -4_074), (60, 7_038), (285, 90_371), (299, 95_000)]),
        (1_000, [(-1, -5_000), (0, -4_996), (1, -4_992), (29, -4_888), (30, -4_518), (60, 6_593), (285, 89_926), (299, 95_000)]),
    ];
    for (least_range, lows) in wanted {
        let mut plant = Plant::open(Sheet { least_range, ..Sheet::default() });
        let bands: Vec<Band> = (0..720)
            .map(|now| {
                let setpoint = if now < 400 { 0 } else { 100_000 };
                let record = Record { afrr_held_up: 100_000, afrr_setpoint: setpoint, status: 2, ..Record::default() };
                next(&mut plant, record).kinds[1].band
            })
            .collect();
        for (age, low) in lows {
            assert_eq!(bands[(400 + age) as usize].low, low, "age {} with {} kW", age, least_range);
        }
    }
}

/// The inputs of the comparison whose sheet opens a book: sheet, owner and accepted seconds.
fn accepted() -> Vec<(Sheet, u8, Vec<Vec<u8>>)> {
    let mut books = Vec::new();
    for seed in 1..=seeds_for_all() {
        let input = make_input(seed).bytes;
        let Some((bytes, mut book)) = input.split_first_chunk::<LENGTH>() else {
            continue;
        };
        let Ok(mut open) = Sheet::read(bytes).and_then(Book::open) else {
            continue;
        };
        let (sheet, mut owner, mut seconds) = (open.unit.sheet, 0, Vec::new());
        let _ = for_each_second(&mut book, |by, bytes| {
            open.second(by, bytes)?;
            owner = by;
            seconds.push(bytes.to_vec());
            Ok(())
        });
        books.push((sheet, owner, seconds));
    }
    books
}

fn rows(book: &mut Book, owner: u8, seconds: &[Vec<u8>]) -> Vec<[Row; 3]> {
    seconds.iter().map(|bytes| book.second(owner, bytes).expect("an accepted second")).collect()
}

/// "A handed-over book keeps its sheet": the rows of the one book, under every sheet, cut at each multiple of 900.
#[test]
fn handing_over_keeps_the_sheet() {
    let mut cuts = 0;
    for (sheet, owner, seconds) in accepted() {
        let mut whole = Book::open(sheet).expect("a sound sheet");
        let wanted = rows(&mut whole, owner, &seconds);
        for cut in (0..=seconds.len()).step_by(900) {
            let mut first = Book::open(sheet).expect("a sound sheet");
            let mut given = rows(&mut first, owner, &seconds[..cut]);
            let mut second = first.hand_over().expect("a multiple of 900");
            assert_eq!([&second.unit, &second.a, &second.b].map(|plant| plant.sheet), [sheet; 3]);
            let rest: Vec<_> = seconds[cut..].iter().map(|bytes| moved_back(bytes, cut as u32)).collect();
            given.extend(rows(&mut second, owner, &rest));
            assert!(given == wanted, "{:?} cut at {}", sheet, cut);
            cuts += (cut > 0 && cut < seconds.len()) as usize;
        }
    }
    assert!(cuts > 30, "{}", cuts);
}

/// The largest and the smallest of some numbers.
fn ends(numbers: impl Iterator<Item = i128> + Clone) -> (i128, i128) {
    (numbers.clone().min().expect("a number"), numbers.max().expect("a number"))
}

/// FCR's and aFRR's bands of one plant, all anew, in whole numbers of a unit that the sheet gives: 1 / (100 × w × (300 - q)) kW.
struct Units {
    figures: [i128; 6],
    fcr: Vec<i128>,
    afrr: Vec<i128>,
    carried: (i128, i128),
}

impl Units {
    fn bands(&mut self, record: &Record) -> [(i128, i128); 2] {
        let [fcr_floor, afrr_floor, _, least_range, r, q] = self.figures;
        let (w, held) = (2 * r, record.fcr_held as i128);
        let unit = 100 * w * (300 - q);
        let deviation = record.deviation as i128;
        self.fcr.push(if deviation.abs() < 10 { 0 } else { -deviation.clamp(-200, 200) * held / 200 });
        self.afrr.push(record.afrr_setpoint as i128);
        let now = self.fcr.len() as i128 - 1;
        let fcr = |second: i128| if second < 0 { 0 } else { self.fcr[second as usize] };
        let afrr = |second: i128| if second < 0 { 0 } else { self.afrr[second as usize] };

        let (mut falls, mut rises) = (0, 0);
        for age in 0..w {
            let (before, after) = (fcr(now - age - 1), fcr(now - age));
            let part = if age <= r { unit } else { unit / w * (w - age) };
            if before > after && after >= fcr(now) {
                falls += (before - after) * part;
            } else if before < after && after <= fcr(now) {
                rises += (after - before) * part;
            }
        }
        let floor = unit / 100 * fcr_floor * held;
        let of_fcr = (fcr(now) * unit - rises.max(floor), fcr(now) * unit + falls.max(floor));

        let s = afrr(now);
        let (up, down) = (record.afrr_held_up as i128, record.afrr_held_down as i128);
        let held = [down, up.max(down), up][(s.signum() + 1) as usize];
        let floor = unit / 100 * afrr_floor * held;
        let (lowest, highest) = ends((now - 300..=now - q).map(afrr));
        let gradient = (highest - lowest).max(least_range) * (unit / (300 - q));
        let (lowest, highest) = ends((now - q..now).map(afrr));
        self.carried.0 = (self.carried.0 + gradient).min(lowest * unit).min(s * unit - floor);
        self.carried.1 = (self.carried.1 - gradient).max(highest * unit).max(s * unit + floor);
        [of_fcr, self.carried].map(|(low, high)| (-(-low).div_euclid(unit), high.div_euclid(unit)))
    }
}

/// "The carried unit must still lose nothing for any sheet": the fractions here give the bands that such units give.
#[test]
fn the_bands_in_units_of_the_sheet() {
    let (mut seconds_seen, mut sheets) = (0, Vec::new());
    for (sheet, owner, seconds) in accepted() {
        let mut book = Book::open(sheet).expect("a sound sheet");
        let mut units = [0; 3].map(|_| Units {
            figures: sheet.figures().map(i128::from),
            fcr: Vec::new(),
            afrr: Vec::new(),
            carried: (0, 0),
        });
        for bytes in seconds.iter().take(1_300) {
            let rows = book.second(owner, bytes).expect("an accepted second");
            for ((units, row), bytes) in units.iter_mut().zip(rows).zip(bytes.chunks(36)) {
                let record = Record::read(bytes);
                let bands = units.bands(&record);
                for kind in 0..2 {
                    let band = row.kinds[kind].band;
                    let given = (band.low as i128, band.high as i128);
                    let wanted = if record.status >> kind & 1 == 1 { bands[kind] } else { (0, 0) };
                    assert_eq!(given, wanted, "kind {} under {:?}", kind, sheet);
                }
            }
            seconds_seen += 1;
        }
        sheets.push(sheet);
    }
    sheets.sort();
    sheets.dedup();
    assert!(seconds_seen > 50_000 && sheets.len() > 60, "{} seconds, {} sheets", seconds_seen, sheets.len());
}

/// "The band and sum statements hold for every sheet": every setpoint is in its band, a kind's actual is where |error| is at most T,
/// and A + B + open = due.
#[test]
fn bands_and_sums_under_every_sheet() {
    for (sheet, owner, seconds) in accepted() {
        let mut book = Book::open(sheet).expect("a sound sheet");
        for row in rows(&mut book, owner, &seconds).concat() {
            for kind in row.kinds {
                assert!(kind.band.low <= kind.setpoint && kind.setpoint <= kind.band.high, "{:?}", sheet);
                let is_inside = kind.band.low <= kind.actual && kind.actual <= kind.band.high;
                assert!(is_inside || row.error.abs() > row.total, "{:?}", sheet);
            }
        }
        let sums = book.sums;
        assert_eq!(sums.a + sums.b + sums.open, sums.due, "{:?}", sheet);
    }
}

/// 16 bytes of figures.
fn bytes_of(figures: [i64; 6]) -> [u8; LENGTH] {
    Sheet::of(figures).write()
}

#[test]
fn the_16_bytes() {
    let bytes = bytes_of([1, 2, 3, 0x0001_0203, 13, 14]);
    assert_eq!(bytes, [1, 2, 3, 13, 14, 0, 0, 0, 3, 2, 1, 0, 0, 0, 0, 0]);
    assert_eq!(Sheet::read(&bytes).map(|sheet| sheet.figures()), Ok([1, 2, 3, 0x0001_0203, 13, 14]));
    let mut below = bytes;
    below[8..12].fill(0xff);
    assert_eq!(Sheet::read(&below).map(|sheet| sheet.least_range), Ok(-1));
    let most = [0xff, 0xff, 0xff, 0xff, 0xff, 0, 0, 0, 0xff, 0xff, 0xff, 0x7f, 0, 0, 0, 0];
    assert_eq!(Sheet::read(&most).map(|sheet| sheet.figures()), Ok([255, 255, 255, i32::MAX as i64, 255, 255]));
}

/// What is printed for a sheet's bytes and a book of the full case.
fn printed(sheet: &[u8]) -> String {
    output_of(&[sheet, &book_bytes(2, &[full_case()])].concat())
}

/// 12 for fewer than 16 bytes, then 18 for a spare byte, then 30; nothing after them.
#[test]
fn sheets_that_are_refused() {
    let sound = bytes_of(DEFAULT);
    let mut wrong = bytes_of([51, 5, 20, 1_000, 15, 30]);
    assert_eq!(printed(&wrong), "refused 30 at 0\n");
    wrong[5] = 1;
    assert_eq!(printed(&wrong), "refused 18 at 0\n", "18 before 30");
    for length in 0..LENGTH {
        assert_eq!(output_of(&sound[..length]), "refused 12 at 0\n");
        assert_eq!(output_of(&wrong[..length]), "refused 12 at 0\n", "12 before 18 and 30");
    }
    assert_eq!(output_of(&sound), "refused 12 at 0\n", "the header's");
    for place in 0..LENGTH {
        let mut bytes = sound;
        bytes[place] ^= 0x80;
        let wanted = if SPARE.contains(&place) { 18 } else { 30 };
        if place != 8 && place != 9 {
            assert_eq!(printed(&bytes), format!("refused {} at 0\n", wanted), "byte {}", place);
        }
    }
    for (figure, (name, lowest, highest)) in RANGES.into_iter().enumerate() {
        for (value, is_sound) in [(lowest - 1, false), (lowest, true), (highest, true), (highest + 1, false)] {
            if value >= 0 {
                let text = printed(&with(&Sheet::default(), figure, value).write());
                assert_eq!(text.starts_with("0 U "), is_sound, "{} of {}", value, name);
                assert_eq!(text == "refused 30 at 0\n", !is_sound, "{} of {}", value, name);
            }
        }
    }
    for least_range in [-1, i32::MIN as i64, i32::MAX as i64, 65_536 + 65_536 + 1_000] {
        assert_eq!(printed(&bytes_of([5, 5, 20, least_range, 15, 30])), "refused 30 at 0\n");
    }
}

/// Fails wherever it is read.
struct Failing;

impl Read for Failing {
    fn read(&mut self, _: &mut [u8]) -> io::Result<usize> {
        Err(io::Error::other("read on"))
    }
}

/// After 18 and 30 nothing more is read.
#[test]
fn nothing_is_read_after_a_refused_sheet() {
    let mut spare = bytes_of(DEFAULT);
    spare[15] = 1;
    for (bytes, wanted) in [(bytes_of([5, 5, 20, 0, 15, 30]), "refused 30 at 0\n"), (spare, "refused 18 at 0\n")] {
        let mut output = Vec::new();
        run(&mut bytes.chain(Failing), &mut output).expect("no more is read");
        assert_eq!(output, wanted.as_bytes());
    }
    assert!(run(&mut bytes_of(DEFAULT).chain(Failing), &mut Vec::new()).is_err());
}

/// The full case: by default what `reference_rows` prints; with floors of 0 and an excess of 0, without the tolerances from them.
#[test]
fn the_full_case_under_sheets() {
    let book = book_bytes(2, &[full_case()]);
    assert_eq!(printed(&bytes_of(DEFAULT)), program::output_of(&book, row_lines));
    assert_eq!(
        printed(&bytes_of([0, 0, 0, 1_000, 15, 30])),
        "0 U -100 -100 0 31 -69 0 0 0 0 0 0 0 0 0 0 0\n\
         0 A -100 -100 0 31 -69 0 0 0 0 0 0 0 0 0 0 0\n\
         0 B 0 0 0 0 0 0 0 0 20 20 0 0 0 0 0 0\n\
         sum A -69 B 20 open 0 due -49\n"
    );
    assert_eq!(
        printed(&bytes_of([50, 50, 50, 1_000, 5, 1])),
        "0 U -100 -300 100 9 -91 0 -500 500 22 22 0 0 0 0 0 0\n\
         0 A -100 -300 100 9 -91 0 0 0 0 0 0 0 0 0 0 0\n\
         0 B 0 0 0 0 0 0 -500 500 42 42 0 0 0 0 0 0\n\
         sum A -91 B 42 open 0 due -49\n"
    );
}

/// A sheet changes no refusal: the last line of a refused book is the one that it has by default.
#[test]
fn refusals_are_those_of_the_default_sheet() {
    let mut refused = 0;
    for seed in 1..=seeds_for_all() {
        let input = make_input(seed).bytes;
        let Some((bytes, book)) = input.split_first_chunk::<LENGTH>() else {
            continue;
        };
        if Sheet::read(bytes).and_then(Book::open).is_err() {
            continue;
        }
        let (given, wanted) = (output_of(&input), program::output_of(book, row_lines));
        assert_eq!(given.lines().count(), wanted.lines().count());
        if wanted.contains("refused") {
            assert_eq!(given.lines().last(), wanted.lines().last());
            refused += 1;
        }
    }
    assert!(refused >= 8, "{}", refused);
}

/// A second under one sheet leaves a book under another alone: two books at once.
#[test]
fn two_sheets_at_once() {
    let mut one = Book::open(Sheet { fcr_floor: 50, ..Sheet::default() }).expect("a sound sheet");
    let mut other = Book::default();
    for _ in 0..3 {
        let bytes = second_bytes(&full_case());
        let lows = [&mut one, &mut other].map(|book| book.second(2, &bytes).expect("an accepted second")[0].kinds[0].band.low);
        assert_eq!(lows, [-300, -120]);
    }
}

/// The inputs by default have everything that `compare_sheet` asks for; others of the same number too.
#[test]
fn the_inputs_have_everything() {
    for first in [1, 1_007] {
        let seeds = first..first + seeds_for_all();
        for (name, least, count) in counted(seeds.map(|seed| make_input(seed).bytes)) {
            assert!(count >= least, "seeds from {}: {} of {}: {}", first, count, least, name);
        }
    }
}
