//! Lists that really play: their runs, also with lengths that will not do,
//! runs that single steps go on from, the reports on what was left, and their
//! texts.

use super::calls::Bench;
use super::texts::try_text;
use crate::dice::Dice;
use crate::playing::List;
use crate::writing::TOO_LONG;
use independent::{TextRead, MAX_STEPS, MAX_TEXT, ROOM, STEP, WIDTH};

/// A list on a record with room for so many messages: the run, the reports on
/// what it left, a run of its first steps that single ones go on from, and the
/// run with bad lengths.
pub fn play_list(bench: &mut Bench, dice: &mut Dice, room: usize, steps: usize) {
    let list = List::new(dice, room.max(1)).fill(steps + 10, usize::MAX);
    let (answers, n) = (list.answers, if room == 0 { 0 } else { list.n });
    let mut numbers = list.steps.as_flattened().to_vec();
    let (record, text) = (list.record, list.text);
    numbers.truncate(steps * STEP);
    read_list(bench, dice, answers, &numbers, &text);

    let count = numbers.len() / STEP;
    let table = bench.table(dice, &[], room * WIDTH);
    let lent_list = bench.table(dice, &numbers, numbers.len());
    let more = dice.pick(&[0, 0, 1, 2, 7, 100]);
    let verdicts = bench.verdicts(dice, count + more);
    bench.run(&table, answers, &lent_list, &verdicts);

    if dice.chance(25) {
        play_mixture(bench, dice, room, answers, &numbers);
        reports_on(bench, dice, &record[..n.min(room) * WIDTH]);
    }
    if dice.chance(10) {
        bad_runs(bench, dice, room, answers, &numbers);
    }
    bench.stale = record;
}

/// The text of a list, up to the last of these steps.
fn read_list(bench: &mut Bench, dice: &mut Dice, answers: u16, numbers: &[u16], text: &[u8]) {
    let steps = numbers.as_chunks::<STEP>().0;
    let lines = text.split_inclusive(|&byte| byte == b'\n');
    let text = lines.take(1 + steps.len()).collect::<Vec<_>>().concat();
    let good = TextRead { number: 0, answers, count: steps.len() as u16, line: 0 };
    let said = if text.len() > MAX_TEXT { (TOO_LONG, &[][..]) } else { (good, steps) };
    try_text(bench, dice, "a list that plays", &text, Some(said));
}

/// A list as a host may play it: some first steps, or none, as a run, and the
/// others one by one, half of them with account answers of their own. What is
/// left is a reached record, so no report on it is 22.
fn play_mixture(bench: &mut Bench, dice: &mut Dice, room: usize, answers: u16, list: &[u16]) {
    let room = room.min(list.len() / STEP + 1);
    let first = if dice.chance(50) { 0 } else { dice.below(list.len() / STEP + 1) };
    let (run, alone) = list.split_at(first * STEP);
    let table = bench.table(dice, &[], room * WIDTH);
    let lent_list = bench.table(dice, run, run.len());
    let verdicts = bench.verdicts(dice, first);
    let mut n = usize::from(bench.run(&table, answers, &lent_list, &verdicts).1);
    let mut table = bench.own.clone();
    for &s in alone.as_chunks::<STEP>().0 {
        let now = if dice.chance(50) { answers } else { dice.next() as u16 };
        let (number, _) = bench.step(&table, n, now, s);
        bench.counts.reach(table.messages(n), &s, number);
        if number == 0 {
            table.copy_from(&bench.own);
            n += 1;
        }
    }
    for place in 1..=n {
        let report = bench.report(&table, n, place);
        bench.counts.mixture(report);
        if report == 22 {
            bench.both_wrong("a record of runs and single steps", &[], "no report 22");
        }
    }
}

/// The report on every place of a record, and on some that it has not.
pub fn reports_on(bench: &mut Bench, dice: &mut Dice, record: &[u16]) {
    let n = record.len() / WIDTH;
    let room = (n + dice.below(3)).min(ROOM);
    let table = bench.table(dice, record, room * WIDTH);
    for place in 1..=n {
        bench.report(&table, n, place);
    }
    let any = dice.below(n + 1);
    for place in [0, n + 1, n + 2, any + (1 << 16), any + (1 << 32), usize::MAX] {
        bench.report(&table, n, place);
    }
}

/// The run of a list with one length or more that will not do.
fn bad_runs(bench: &mut Bench, dice: &mut Dice, room: usize, answers: u16, list: &[u16]) {
    for fault in 0..24 {
        let (bad_table, bad_list, few_verdicts) = (fault & 1 != 0, fault & 2 != 0, fault & 4 != 0);
        let table_len = match (bad_table, dice.below(4)) {
            (false, _) => room * WIDTH,
            (true, 0) => room * WIDTH + 1 + dice.below(WIDTH - 1),
            (true, 1) => (room * WIDTH).checked_sub(1).unwrap_or(1),
            (true, 2) => room * WIDTH + 1,
            _ => ROOM * WIDTH + dice.pick(&[1, 47, 48, 96]),
        };
        let list_len = match (bad_list, dice.below(4)) {
            (false, _) => list.len(),
            (true, 0) => list.len() + 1,
            (true, 1) => list.len().checked_sub(1).unwrap_or(6),
            (true, 2) => list.len() + 1 + dice.below(STEP - 1),
            _ => (MAX_STEPS + 1 + dice.below(2)) * STEP,
        };
        let needed = list_len.div_ceil(STEP);
        let bytes = match (few_verdicts, dice.below(2)) {
            (false, _) => needed + dice.below(3),
            (true, 0) => needed.saturating_sub(1),
            _ => dice.below(needed.max(1)),
        };
        let table = bench.table(dice, &[], table_len);
        let lent_list = bench.table(dice, list, list_len);
        let verdicts = bench.verdicts(dice, bytes);
        bench.run(&table, answers, &lent_list, &verdicts);
    }
}
