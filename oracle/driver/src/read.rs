//! The stage read: pictures marked with records of all kinds, damaged and not, and unmarked ones, read with the right key,
//! with a wrong one, with none and with one too many. Answer, text and work area are compared.

use judge::picture::Picture;
use judge::random::Random;
use judge::records::KEYED;
use judge::refusal::Refused;
use judge::resilient::{self, Key};

use crate::damage::DAMAGES;
use crate::lent::Floats;
use crate::tally::Tally;
use crate::told::{Told, flag};
use crate::{ours, record, shapes};

type Read = unsafe extern "C" fn(
    *const u8,
    usize,
    usize,
    usize,
    usize,
    u8,
    &[u8; 32],
    *mut f32,
    usize,
    &mut [u8; 32],
    &mut usize,
    &mut u64,
) -> u8;

/// What ours tells, and the floats that were lent.
pub fn told(
    random: &mut Random,
    key: Option<Key>,
    picture: Picture,
    samples: &[u8],
    room: usize,
) -> Option<(Told, Floats)> {
    let ours: Read = ours::vaikelomu_read.function?;
    let keyed = flag(random, key.is_some());
    let key = key.unwrap_or(random.array());
    let mut work = Floats::new(room);
    let Picture { width, height, channels } = picture;
    let (from, count) = (samples.as_ptr(), samples.len());
    let told = Told::by(random, |text, length, given| unsafe {
        let at = work.lend().as_mut_ptr();
        ours(from, count, width, height, channels, keyed, &key, at, room, text, length, given)
    });
    Some((told, work))
}

/// The scope: as lent after 1 to 7, and after 8 for a zero side; otherwise zeros.
pub fn work_as_said(picture: Picture, number: u8, work: &Floats) -> bool {
    let zero_side = picture.width == 0 || picture.height == 0;
    if (1..=7).contains(&number) || zero_side { work.kept() } else { work.cleared() }
}

fn compare_reading(
    tally: &mut Tally,
    random: &mut Random,
    key: Option<Key>,
    (picture, samples): (Picture, &[u8]),
    what: &str,
) {
    let room = shapes::room(random, picture, 1);
    let Some((told, work)) = told(random, key, picture, samples, room) else {
        return;
    };
    let theirs: Result<String, Refused> = resilient::read(key, picture, samples, room);
    let expected = Told::of(&theirs);
    let work_as_said = work_as_said(picture, expected.number, &work);
    tally.count(told == expected && work_as_said, || {
        format!(
            "vaikelomu_read, {what}, {picture:?}, {room} lent, {key:?}: ours {told:?}, Rust \
             {expected:?}, work area as said: {work_as_said}"
        )
    });
}

/// The right key where the record has one, and by chance another, none, or one too many.
pub fn asked(random: &mut Random, record: &[u8; 46], right: Key) -> Option<Key> {
    let keyed = (record[0] == KEYED) != (random.below(8) == 0);
    let key = if random.below(8) == 0 { random.array() } else { right };
    keyed.then_some(key)
}

fn compare_picture(tally: &mut Tally, random: &mut Random, case: usize, picture: Picture) {
    let mut samples = shapes::samples(random, case, picture);
    let right = random.array();
    let record = record::any(random, right);
    let sides = [picture.width, picture.height];
    let whole = samples.len() == picture.width * picture.height * picture.channels;
    let markable = whole && sides.iter().all(|side| (1..=8_192).contains(side));
    let marked = markable && random.below(8) != 0;
    if marked {
        resilient::mark_record(&record, picture, &mut samples);
    }
    let (name, _) = shapes::kind(case);
    let mark = if marked { "marked" } else { "not marked" };
    let key = asked(random, &record, right);
    compare_reading(
        tally,
        random,
        key,
        (picture, &samples),
        &format!("case {case}, {name} {mark}"),
    );
    if !whole {
        return;
    }
    // Quantising a large picture would take longer than all else.
    let few = picture.width * picture.height < 1 << 22;
    let (damage_name, damage) = DAMAGES[case % (if few { 5 } else { 4 })];
    let (picture, samples) = damage(random, picture, &samples);
    let key = asked(random, &record, right);
    let what = format!("case {case}, {name} {mark}, {damage_name}");
    compare_reading(tally, random, key, (picture, &samples), &what);
}

pub fn compare(random: &mut Random, scale: u64) -> Tally {
    let mut tally = Tally::default();
    if ours::vaikelomu_read.function.is_none() {
        tally.missing.push(ours::vaikelomu_read.name);
        return tally;
    }
    for (case, picture) in shapes::shapes(random, scale).into_iter().enumerate() {
        compare_picture(&mut tally, random, case, picture);
    }
    tally
}
