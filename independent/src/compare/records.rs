//! Steps and reports on lawful records that no run reaches, on sessions with
//! one number changed, and on damaged records.

use super::calls::Bench;
use super::lent::Lent;
use super::lists::reports_on;
use crate::dice::Dice;
use crate::records::{Few, Session, HONEST};
use independent::{ROOM, STEP, WIDTH};

/// Steps and reports on lawful messages of all kinds, and then on the same
/// with one thing damaged.
pub fn play_record(
    bench: &mut Bench,
    dice: &mut Dice,
    few: &Few,
    n: usize,
    room: usize,
    steps: usize,
) {
    let record = few.record(dice, n);
    let mut table = bench.table(dice, record.as_flattened(), room * WIDTH);
    let mut n = n;
    for _ in 0..steps {
        let s = few.step(dice, table.messages(n));
        let answers = dice.next() as u16;
        let (number, _) = bench.step(&table, n, answers, s);
        if number == 0 && dice.chance(30) {
            table.copy_from(&bench.own);
            n += 1;
        }
    }
    let record = table.inside()[..n * WIDTH].to_vec();
    reports_on(bench, dice, &record);
    for _ in 0..4 {
        damage(bench, dice, few, &table, n);
    }
}

/// Steps and reports with one number of the record, its count or its length
/// changed.
fn damage(bench: &mut Bench, dice: &mut Dice, few: &Few, table: &Lent<u16>, n: usize) {
    let s = few.step(dice, table.messages(n));
    let answers = dice.next() as u16;
    let mut both = |table: &Lent<u16>, n: usize, place: usize| {
        bench.step(table, n, answers, s);
        bench.report(table, n, place);
    };
    let place = dice.below(n + 2);
    let room = table.len() / WIDTH;
    for count in [0, n / 2, n.saturating_sub(1), room, room + 1, n + (1 << 16), usize::MAX] {
        both(table, count, place);
    }
    if table.len() > 0 {
        let mut damaged = table.clone();
        let i = dice.below(table.len());
        let number = &mut damaged.inside_mut()[i];
        *number = dice.pick(&[0, 1, 2, 3, 5, 6, 15, 16, 17, 512, 513, 65_535, *number ^ 256]);
        both(&damaged, n, place);
    }
    let bad_length = dice.pick(&[
        table.len() + 1,
        table.len().saturating_sub(1),
        table.len() + 47,
        ROOM * WIDTH + 1,
        (ROOM + 1) * WIDTH,
    ]);
    let other = bench.table(dice, table.inside(), bad_length);
    bench.step(&other, n, answers, s);
    bench.report(&other, n, place);
}

/// The places of a session's five messages among others: mostly in order, the
/// reply last.
fn spread(dice: &mut Dice, n: usize) -> [u16; 5] {
    let mut all: Vec<u16> = (1..=n as u16).collect();
    let mut places = [0; 5];
    for place in &mut places {
        *place = all.swap_remove(dice.below(all.len()));
    }
    if dice.chance(80) {
        places.sort_unstable();
    }
    places
}

/// A session, every honest step and the report on it, and the same again with
/// each number of each message another in turn.
pub fn play_session(bench: &mut Bench, dice: &mut Dice, few: &Few) {
    let honest = few.session(dice);
    let session = if dice.chance(80) { honest } else { few.nearly(dice, honest) };
    let n = dice.between(5, 8).into();
    let mut record = few.record(dice, n);
    let places = spread(dice, n);
    for (&place, w) in places.iter().zip(session.messages(dice.between(1, 2))) {
        record[usize::from(place) - 1] = w;
    }
    let room = n + usize::from(dice.chance(90));
    let table = bench.table(dice, record.as_flattened(), room * WIDTH);
    honest_steps(bench, dice, &table, n, &session, places);

    for _ in 0..12 {
        let mut record = record.clone();
        let other = few.nearly(dice, session);
        let k = dice.below(5);
        for (i, (&place, w)) in places.iter().zip(other.messages(1)).enumerate() {
            if i >= k {
                record[usize::from(place) - 1] = w;
            }
        }
        let table = bench.table(dice, record.as_flattened(), room * WIDTH);
        honest_steps(bench, dice, &table, n, &session, places);
    }
    each_number(bench, dice, few, &table, n, &session, places);
}

/// The honest steps and the report, with each number of each message of the
/// session another in turn.
fn each_number(
    bench: &mut Bench,
    dice: &mut Dice,
    few: &Few,
    table: &Lent<u16>,
    n: usize,
    session: &Session,
    places: [u16; 5],
) {
    for (kind, &place) in (1..).zip(&places) {
        for position in 0..WIDTH {
            let at = (usize::from(place) - 1) * WIDTH + position;
            let old = table.inside()[at];
            let lawful = few.lawful_number(dice, kind, position);
            let any = dice.next() as u16;
            for number in [lawful, old ^ 1, old.wrapping_add(1), old.wrapping_sub(1), any] {
                let mut changed = table.clone();
                changed.inside_mut()[at] = number;
                for &code in naming(kind) {
                    let s = session.step(code, [places[0], places[1], places[2], places[3]]);
                    bench.step(&changed, n, 0x5555, s);
                }
                bench.report(&changed, n, places[4].into());
            }
        }
    }
}

/// The honest codes that name a message of this kind.
fn naming(kind: u16) -> &'static [u16] {
    match kind {
        1 => &[2, 3, 38],
        2 => &[3, 38, 4],
        3 => &[4],
        _ => &[5],
    }
}

/// The six honest steps, with one argument changed too, and the report.
fn honest_steps(
    bench: &mut Bench,
    dice: &mut Dice,
    table: &Lent<u16>,
    n: usize,
    session: &Session,
    [i, v, p, q, reply]: [u16; 5],
) {
    let answers = dice.next() as u16;
    for code in HONEST {
        let s = session.step(code, [i, v, p, q]);
        bench.step(table, n, answers, s);
        for argument in 1..STEP {
            let mut other = s;
            other[argument] = dice.between(0, n as u16 + 1);
            bench.step(table, n, answers, other);
        }
    }
    bench.report(table, n, reply.into());
}

/// A message of each kind, with each of very many numbers at each position.
pub fn play_positions(bench: &mut Bench, dice: &mut Dice, few: &Few) {
    let powers = (10..16).flat_map(|bit| [(1 << bit) - 1, 1 << bit, (1 << bit) + 1]);
    let numbers: Vec<u16> = (0..600).chain(powers).chain([65_534, 65_535]).collect();
    for kind in 1..=5 {
        let record = [few.message(dice, 1), few.message(dice, kind)];
        let mut table = bench.table(dice, record.as_flattened(), 3 * WIDTH);
        for position in 0..WIDTH {
            let at = WIDTH + position;
            let old = table.inside()[at];
            for &number in &numbers {
                table.inside_mut()[at] = number;
                bench.step(&table, 2, 0, [1, 0, 15, 0, 0, 0, 0]);
                bench.report(&table, 2, 2);
            }
            table.inside_mut()[at] = old;
        }
    }
}
