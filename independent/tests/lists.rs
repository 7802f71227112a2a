//! The lists of paper 01, those of request 1 of paper 02, the refusals in
//! number order, the messages that each step adds, and the report. All expected
//! values follow from the two papers.

use independent::{
    bench, read_text, report, run, step, TextRead, MAX_STEPS, MAX_TEXT, ROOM, STEP, WIDTH,
};
use std::collections::BTreeSet;
use std::fs;
use std::io::Write;
use std::path::Path;
use std::process::{Command, Stdio};

// ---------------------------------------------------------------------------
// Helpers
// ---------------------------------------------------------------------------

/// A record, the number of messages in it and the account answers.
#[derive(Clone)]
struct Game {
    record: Vec<u16>,
    n: usize,
    answers: u16,
}

impl Game {
    fn with_room(messages: usize) -> Self {
        Game { record: vec![0; messages * WIDTH], n: 0, answers: 8 }
    }

    fn new() -> Self {
        Game::with_room(ROOM)
    }

    /// A game that begins with these messages, room for 8 in all.
    fn of(messages: &[Vec<u16>]) -> Self {
        let mut game = Game::with_room(8);
        for message in messages {
            let from = game.n * WIDTH;
            game.record[from..from + message.len()].copy_from_slice(message);
            game.n += 1;
        }
        game
    }

    fn play(&mut self, numbers: &[u16]) -> (u8, u16) {
        let (number, place) = step(&mut self.record, self.n, self.answers, full(numbers));
        self.n += usize::from(number == 0);
        (number, place)
    }

    /// The number of a step that is not kept.
    fn try_step(&self, numbers: &[u16]) -> u8 {
        self.clone().play(numbers).0
    }

    fn message(&self, place: usize) -> &[u16] {
        &self.record[(place - 1) * WIDTH..place * WIDTH]
    }

    fn set(&mut self, place: usize, position: usize, value: u16) {
        self.record[(place - 1) * WIDTH + position] = value;
    }

    fn report(&self, place: usize) -> u8 {
        report(&self.record, self.n, place)
    }
}

/// A step with the arguments left off put back as 0.
fn full(numbers: &[u16]) -> [u16; STEP] {
    let mut s = [0; STEP];
    s[..numbers.len()].copy_from_slice(numbers);
    s
}

/// Plays steps written as in the paper, parted by commas.
fn play(game: &mut Game, list: &str) -> Vec<u8> {
    list.split(',')
        .map(|line| {
            let numbers: Vec<u16> =
                line.split_whitespace().map(|number| number.parse().unwrap()).collect();
            game.play(&numbers).0
        })
        .collect()
}

fn played(list: &str) -> (Game, Vec<u8>) {
    let mut game = Game::new();
    let numbers = play(&mut game, list);
    (game, numbers)
}

fn numbers(list: &str) -> Vec<u8> {
    played(list).1
}

/// The paper's way of writing text: spaces for tabs, slashes for line feeds.
fn text(lines: &str) -> Vec<u8> {
    lines.split(" / ").map(|line| line.replace(' ', "\t") + "\n").collect::<String>().into_bytes()
}

const P1: &str = "A 8 / 1 3 2 / 2 2 1 / 3 3 1 2 / 4 2 2 3 / 5 4 / 31 2 2 3 / 5 6";
const P1_PRINTS: &str = "1 0 1 / 2 0 2 / 3 0 3 / 4 0 4 / 5 0 5 / 6 0 6 / 7 6 0 / R 5 2 3 20";
const SESSION: &str = "1 3 2, 2 2 1, 3 3 1 2, 4 2 2 3, 5 4";

/// The two codes by which a buyer pays, each with the key of the slip. Their
/// conditions are the same.
const PAYS: [(u16, u16); 2] = [(3, 1), (38, 0)];

/// The five messages of the session of buyer 3 and seller 2, account 3 good.
fn session_messages() -> [Vec<u16>; 5] {
    let hashed = [3, 1, 3];
    let mark = [2, 3, 3, 1, 3];
    let slip = [1, 2, 3, 3, 1, 3, 3, 3, 1];
    [
        join(&[&[1, 3, 3, 2], &hashed]),
        join(&[&[2, 2, 2, 3], &mark, &[2], &mark]),
        join(&[&[3, 3, 3, 2], &slip, &[3], &slip, &mark]),
        join(&[&[4, 2, 2, 1], &mark, &slip, &[2], &mark, &slip, &[3], &slip, &mark]),
        join(&[&[5, 1, 1, 2, 1], &[1, 1], &mark]),
    ]
}

/// Parts of a message one after the other, then 0 up to its end.
fn join(parts: &[&[u16]]) -> Vec<u16> {
    let mut message = parts.concat();
    assert!(message.len() <= WIDTH);
    message.resize(WIDTH, 0);
    message
}

fn program(input: &[u8]) -> Vec<u8> {
    let mut child = Command::new(env!("CARGO_BIN_EXE_independent"))
        .stdin(Stdio::piped())
        .stdout(Stdio::piped())
        .spawn()
        .unwrap();
    child.stdin.take().unwrap().write_all(input).unwrap();
    let output = child.wait_with_output().unwrap();
    assert!(output.status.success());
    output.stdout
}

// ---------------------------------------------------------------------------
// Lists to try
// ---------------------------------------------------------------------------

#[test]
fn p1_prints_what_the_paper_says() {
    assert_eq!(bench(&text(P1)), text(P1_PRINTS));
    assert_eq!(program(&text(P1)), text(P1_PRINTS));
}

#[test]
fn p2_buyer_0_pays_seller_2() {
    let (game, numbers) = played("1 0 2, 2 2 1, 3 0 1 2, 4 2 2 3, 5 4");
    assert_eq!(numbers, [0; 5]);
    assert_eq!(game.report(5), 20);
}

#[test]
fn p3_forged_request_for_seller_2() {
    assert_eq!(numbers("1 0 2, 2 2 1, 33 2 0 1, 5 3"), [0, 0, 0, 6]);
}

#[test]
fn p4_outsider_alone() {
    let (game, numbers) = played("1 0 0, 2 0 1, 33 0 0 1, 5 3");
    assert_eq!(numbers, [0; 4]);
    assert_eq!(game.report(4), 21);
}

#[test]
fn p5_seller_0_forges_his_own_request() {
    let (game, numbers) = played("1 3 0, 2 0 1, 3 3 1 2, 25 0 2 3 3, 5 4");
    assert_eq!(numbers, [0; 5]);
    assert_eq!(game.report(5), 20);
}

#[test]
fn p6_invoice_for_another_buyer() {
    for (code, _) in PAYS {
        let list = format!("1 3 2, 2 2 1, 1 4 2, 8 4 2 2 2, {code} 4 3 4");
        assert_eq!(numbers(&list), [0, 0, 0, 0, 6]);
    }
}

#[test]
fn p7_initiate_forged_for_another_buyer() {
    for (code, _) in PAYS {
        assert_eq!(numbers(&format!("1 3 2, 6 4 2 1, 2 2 2, {code} 4 2 3")), [0, 0, 0, 6]);
    }
}

#[test]
fn p8_draw_of_another() {
    assert_eq!(numbers("1 3 2, 7 2 0 1"), [0, 5]);
    assert_eq!(numbers("1 0 2, 7 2 0 1"), [0, 0]);
}

#[test]
fn p9_ranges() {
    assert_eq!(numbers("1 15 2"), [0]);
    assert_eq!(numbers("1 16 2"), [3]);
    assert_eq!(numbers("1 3 2 7"), [3]);
    assert_eq!(numbers("0, 39"), [2, 2]);
    assert_eq!(numbers("5 1"), [4]);
}

#[test]
fn p10_room_for_4() {
    let mut game = Game::with_room(4);
    assert_eq!(play(&mut game, SESSION), [0, 0, 0, 0, 7]);
    assert_eq!(play(&mut game, "5 3"), [5]);
}

#[test]
fn two_equal_invoices() {
    let (game, numbers) = played("1 3 2, 2 2 1, 2 2 1");
    assert_eq!(numbers, [0; 3]);
    assert_eq!(game.message(2), game.message(3));
}

// ---------------------------------------------------------------------------
// Lists with a buyer sent to the false gateway
// ---------------------------------------------------------------------------

#[test]
fn step_4_takes_a_slip_under_key_0_and_step_5_does_not() {
    assert_eq!(numbers("1 3 2, 2 2 1, 38 3 1 2, 4 2 2 3, 5 4"), [0, 0, 0, 0, 6]);
}

#[test]
fn outsider_forges_an_initiate_from_a_slip_under_key_0() {
    let (game, numbers) = played("1 3 2, 2 2 1, 38 3 1 2, 7 2 3 3");
    assert_eq!(numbers, [0; 4]);
    assert_eq!(game.message(4), join(&[&[1, 0, 3, 2], &[3, 1, 3]]));
}

#[test]
fn outsider_opens_no_slip_under_key_1() {
    // asked for account and draw, for the draw alone, for the account alone
    assert_eq!(numbers("1 3 2, 2 2 1, 3 3 1 2, 7 2 3 3"), [0, 0, 0, 5]);
    assert_eq!(numbers("1 3 2, 2 2 1, 3 3 1 2, 7 2 0 3"), [0, 0, 0, 5]);
    assert_eq!(numbers("1 0 2, 2 2 1, 3 0 1 2, 7 2 3 1"), [0, 0, 0, 5]);
}

#[test]
fn house_refuses_requests_forged_from_a_slip_under_key_0() {
    // signed by 0, then with signatures over the slip as it was, under key 0
    let list = "1 3 2, 2 2 1, 38 3 1 2, 4 2 2 3, 33 2 3 3, 5 5, 24 2 3 3 4 3, 5 6";
    assert_eq!(numbers(list), [0, 0, 0, 0, 0, 6, 0, 6]);
}

#[test]
fn house_refuses_seller_0_a_slip_under_another_key_than_the_buyers() {
    assert_eq!(numbers("1 3 0, 2 0 1, 38 3 1 2, 27 0 3 3 3, 5 4"), [0, 0, 0, 0, 6]);
}

#[test]
fn buyer_pays_again_under_key_1() {
    let (game, numbers) = played("1 3 2, 2 2 1, 38 3 1 2, 3 3 1 2, 4 2 2 4, 5 5");
    assert_eq!(numbers, [0; 6]);
    assert_eq!(game.report(6), 20);
    // and seller 0 forges his own request with what the first slip shows
    let (game, numbers) = played("1 3 0, 2 0 1, 38 3 1 2, 3 3 1 2, 27 0 3 3 4, 5 5");
    assert_eq!(numbers, [0; 6]);
    assert_eq!(game.report(6), 20);
}

#[test]
fn outsider_alone_with_a_slip_under_key_0() {
    let (game, numbers) = played("1 0 0, 2 0 1, 38 0 1 2, 33 0 3 3, 5 4");
    assert_eq!(numbers, [0; 5]);
    assert_eq!(game.report(5), 21);
}

// ---------------------------------------------------------------------------
// Refusals of a step
// ---------------------------------------------------------------------------

/// Whether the record with one number changed is refused with 1.
fn unlawful(place: usize, position: usize, value: u16) -> bool {
    let (mut game, _) = played(SESSION);
    game.set(place, position, value);
    let refused = game.try_step(&[1, 3, 2]) == 1;
    assert_eq!(refused, game.report(5) == 1);
    refused
}

#[test]
fn refusal_1_for_shape() {
    let first = [1, 3, 2, 0, 0, 0, 0];
    assert_eq!(step(&mut [0; 49], 0, 8, first), (1, 0));
    assert_eq!(step(&mut [0; 47], 0, 8, first), (1, 0));
    assert_eq!(step(&mut vec![0; (ROOM + 1) * WIDTH], 0, 8, first), (1, 0));
    assert_eq!(step(&mut [0; WIDTH], 2, 8, first), (1, 0));
    assert_eq!(step(&mut [], 1, 8, first), (1, 0));
    assert_eq!(step(&mut [], 0, 8, first), (7, 0));
    assert_eq!(step(&mut vec![0; ROOM * WIDTH], 0, 8, first), (0, 1));
}

#[test]
fn refusal_1_for_kinds_and_unused_positions() {
    assert!(unlawful(1, 0, 0));
    assert!(unlawful(1, 0, 6));
    assert!(unlawful(1, 0, 2));
    for (place, used) in [(1, 7), (2, 15), (3, 28), (5, 12)] {
        for position in used..WIDTH {
            assert!(unlawful(place, position, 1));
        }
    }
}

/// The positions from 1 on whose limits are 0..15, 0..1, 1..512 and 1..2.
#[test]
fn refusal_1_for_ranges() {
    let head = "ppp";
    let hashed = "pdp";
    let mark = "pppdp";
    let slip = "gpppdpppd";
    let kinds = [
        [head, hashed].concat(),
        [head, mark, "p", mark].concat(),
        [head, slip, "p", slip, mark].concat(),
        ["ppg", mark, slip, "p", mark, slip, "p", slip, mark].concat(),
        ["ggp", "c", "gc", mark].concat(),
    ];
    for (place, sorts) in (1..).zip(kinds) {
        for (position, sort) in (1..).zip(sorts.chars()) {
            let (low, high) = match sort {
                'p' => (0, 15),
                'g' => (0, 1),
                'd' => (1, 512),
                _ => (1, 2),
            };
            assert!(!unlawful(place, position, low));
            assert!(!unlawful(place, position, high));
            assert!(unlawful(place, position, high + 1));
            assert!(unlawful(place, position, 65_535));
            assert!(low == 0 || unlawful(place, position, low - 1));
        }
    }
}

#[test]
fn places_past_n_are_never_examined() {
    let (mut game, _) = played("1 3 2");
    game.record[WIDTH..].fill(65_535);
    assert_eq!(game.play(&[2, 2, 1]), (0, 2));
    assert_eq!(game.message(2), session_messages()[1]);
    assert!(game.record[2 * WIDTH..].iter().all(|&number| number == 65_535));
    assert_eq!(game.try_step(&[2, 2, 3]), 4);
    assert_eq!(game.report(3), 4);
}

#[test]
fn refused_steps_write_nothing() {
    let (mut game, _) = played(SESSION);
    let before = game.record.clone();
    for s in
        [&[0][..], &[39], &[65_535], &[1, 16, 2], &[2, 2, 6], &[2, 2, 2], &[2, 3, 1], &[7, 2, 0, 1]]
    {
        let (number, place) = game.play(s);
        assert_ne!(number, 0);
        assert_eq!(place, 0);
        assert_eq!(game.record, before);
    }
}

#[test]
fn refusal_2_for_codes() {
    for code in [0, 39, 40, 256, 65_535] {
        assert_eq!(numbers(&format!("{code}")), [2]);
        assert_eq!(numbers(&format!("{code} 99 99 99 99 99 99")), [2]);
    }
}

/// How many arguments each code takes, from the papers.
const TAKEN: [usize; 39] = [
    0, 2, 2, 3, 3, 1, 3, 3, 4, 4, 4, 3, 3, 3, 4, 5, 4, 4, 4, 4, 4, 3, 5, 6, 5, 4, 5, 4, 4, 5, 4, 3,
    4, 3, 3, 3, 4, 4, 3,
];

#[test]
fn refusal_3_for_unused_arguments() {
    for code in 1..=38 {
        for unused in TAKEN[usize::from(code)] + 1..STEP {
            let mut s = [0; STEP];
            s[0] = code;
            s[unused] = 1;
            assert_eq!(Game::new().play(&s), (3, 0));
        }
    }
}

#[test]
fn refusal_3_for_parties_and_codes() {
    let good = mixed_game();
    for (code, args) in mixed_steps() {
        for (i, sort) in sorts(code).chars().enumerate() {
            let mut s = full(&[&[code], &args[..]].concat());
            assert_eq!(good.try_step(&s), 0, "code {code}");
            let wrong: &[u16] = match sort {
                'B' | 'S' => &[16, 65_535],
                'c' => &[0, 3, 65_535],
                _ => &[],
            };
            for &value in wrong {
                s[i + 1] = value;
                assert_eq!(good.try_step(&s), 3, "code {code}");
            }
        }
    }
}

#[test]
fn refusal_4_for_places() {
    let good = mixed_game();
    for (code, args) in mixed_steps() {
        for (i, sort) in sorts(code).chars().enumerate() {
            if "BSc".contains(sort) {
                continue;
            }
            let mut s = full(&[&[code], &args[..]].concat());
            for value in [good.n as u16 + 1, 513, 65_535] {
                s[i + 1] = value;
                assert_eq!(good.try_step(&s), 4, "code {code}");
            }
            s[i + 1] = 0;
            assert_eq!(good.try_step(&s), if sort == 'a' { 0 } else { 4 }, "code {code}");
        }
    }
}

#[test]
fn refusals_3_and_4_of_a_payment() {
    let (game, _) = played("1 3 2, 2 2 1");
    for (code, _) in PAYS {
        let number = |buyer, initiate, invoice| game.try_step(&[code, buyer, initiate, invoice]);
        assert_eq!(number(3, 1, 2), 0);
        assert_eq!([16, 65_535].map(|buyer| number(buyer, 1, 2)), [3; 2]);
        for place in [0, 3, 513, 65_535] {
            assert_eq!(number(3, place, 2), 4);
            assert_eq!(number(3, 1, place), 4);
        }
    }
}

/// Which of the seven messages of the mixed game hold each item.
fn holders(sort: char) -> &'static [u16] {
    match sort {
        'h' => &[1, 6],
        'm' => &[2, 4],
        'e' | 'p' => &[3, 4, 7],
        'a' => &[3, 4],
        'r' => &[1, 3, 4],
        'v' => &[2],
        'q' => &[4],
        _ => &[5],
    }
}

#[test]
fn refusal_5_for_items() {
    let good = mixed_game();
    for (code, args) in mixed_steps() {
        for (i, sort) in sorts(code).chars().enumerate() {
            if "BSc".contains(sort) {
                continue;
            }
            for place in 1..=7 {
                let mut s = full(&[&[code], &args[..]].concat());
                s[i + 1] = place;
                let number = if holders(sort).contains(&place) { 0 } else { 5 };
                assert_eq!(good.try_step(&s), number, "code {code}, {sort} at {place}");
            }
        }
    }
}

#[test]
fn refusal_5_for_kinds_of_honest_steps() {
    let (game, _) = played(SESSION);
    for place in 1..=5 {
        let wrong = |good: u16| place != good;
        assert_eq!(game.try_step(&[2, 2, place]) == 5, wrong(1));
        for (code, _) in PAYS {
            assert_eq!(game.try_step(&[code, 3, place, 2]) == 5, wrong(1));
            assert_eq!(game.try_step(&[code, 3, 1, place]) == 5, wrong(2));
        }
        assert_eq!(game.try_step(&[4, 2, place, 3]) == 5, wrong(2));
        assert_eq!(game.try_step(&[4, 2, 2, place]) == 5, wrong(3));
        assert_eq!(game.try_step(&[5, place]) == 5, wrong(4));
    }
}

#[test]
fn first_in_order_wins() {
    // 1 before 2
    assert_eq!(step(&mut [0; 49], 0, 8, [0; 7]).0, 1);
    // 3 before 4, wherever the argument stands
    assert_eq!(numbers("2 16 9"), [3]);
    assert_eq!(numbers("36 2 3 3 9"), [3]);
    assert_eq!(numbers("5 9 1"), [3]);
    assert_eq!(numbers("37 2 0 9 9"), [3]);
    // 4 before 5, wherever the argument stands
    assert_eq!(numbers("1 3 2, 8 2 3 1 9"), [0, 4]);
    assert_eq!(numbers("1 3 2, 8 2 3 9 1"), [0, 4]);
    assert_eq!(numbers("1 3 2, 7 2 1 9"), [0, 4]);
    // 6 before 7, and each of the others before 7
    let mut game = Game::with_room(1);
    assert_eq!(play(&mut game, "1 3 2, 2 3 1, 2 2 2, 2 16 1, 39, 8 2 3 1 1"), [0, 6, 4, 3, 2, 5]);
    assert_eq!(play(&mut game, "1 3 2, 2 2 1, 6 3 2 1"), [7; 3]);
}

#[test]
fn first_in_order_wins_for_a_payment() {
    for (code, _) in PAYS {
        let number = |args: &str| numbers(&format!("1 3 2, 2 2 1, {code} {args}"))[2];
        // 3 before 4, wherever the argument stands
        assert_eq!(number("16 9 9"), 3);
        assert_eq!(number("3 9 9 1"), 3);
        // 4 before 5
        assert_eq!(number("3 9 1"), 4);
        assert_eq!(number("3 2 9"), 4);
        // 5 before 6
        assert_eq!(number("4 1 1"), 5);
        assert_eq!(number("4 2 2"), 5);
        // 6 before 7, and each of the others before 7
        let mut full = Game::with_room(2);
        let list = "1 3 2, 2 2 1, C 16 1 2, C 3 1 9, C 3 1 1, C 4 1 2, C 3 1 2";
        let expected = [0, 0, 3, 4, 5, 6, 7];
        assert_eq!(play(&mut full, &list.replace('C', &code.to_string())), expected);
    }
}

#[test]
fn refusal_7_when_all_room_is_used() {
    let mut game = Game::new();
    for place in 1..=512 {
        assert_eq!(game.play(&[1, 3, 2]), (0, place));
        assert_eq!(game.message(place.into())[..7], [1, 3, 3, 2, 3, place, 3]);
    }
    assert_eq!(game.play(&[1, 3, 2]), (7, 0));
    assert_eq!(game.play(&[2, 2, 512]), (7, 0));
    assert_eq!(game.play(&[2, 3, 512]), (6, 0));
}

// ---------------------------------------------------------------------------
// Honest steps
// ---------------------------------------------------------------------------

#[test]
fn honest_steps_add_their_messages() {
    let (game, numbers) = played(SESSION);
    assert_eq!(numbers, [0; 5]);
    for (place, message) in (1..).zip(session_messages()) {
        assert_eq!(game.message(place), message);
    }
}

#[test]
fn reply_follows_the_bit_of_the_account() {
    for buyer in 0..16 {
        for (answers, code) in [(1 << buyer, 1), (!(1 << buyer), 2), (0, 2), (65_535, 1)] {
            let mut game = Game { answers, ..Game::new() };
            let list = format!("1 {buyer} 2, 2 2 1, 3 {buyer} 1 2, 4 2 2 3, 5 4");
            assert_eq!(play(&mut game, &list), [0; 5]);
            let reply = [5, 1, 1, 2, code, 1, code, 2, buyer, buyer, 1, buyer];
            assert_eq!(game.message(5)[..12], reply);
            assert_eq!(game.report(5), 20);
        }
    }
}

#[test]
fn step_38_adds_a_payment_under_key_0() {
    let (game, numbers) = played("1 3 2, 2 2 1, 38 3 1 2");
    assert_eq!(numbers, [0; 3]);
    // kind 3 from 3 to 2; slip; signer, signed slip, signed mark; unused
    let payment = [
        3, 3, 3, 2, 0, 2, 3, 3, 1, 3, 3, 3, 1, 3, 0, 2, 3, 3, 1, 3, 3, 3, 1, 2, 3, 3, 1, 3, 0, 0,
        0, 0, 0, 0, 0, 0, 0, 0, 0, 0, 0, 0, 0, 0, 0, 0, 0, 0,
    ];
    assert_eq!(game.message(3), payment);
    // Step 3 adds the same but for the two keys.
    let [_, _, paid, ..] = session_messages();
    let differs = |&position: &usize| payment[position] != paid[position];
    assert_eq!((0..WIDTH).filter(differs).collect::<Vec<_>>(), [4, 14]);
}

/// The positions of the message at a place on which a step's condition turns:
/// those where some other lawful number makes the step refused with 6.
fn positions_that_matter(s: &[u16], place: usize) -> Vec<usize> {
    let (game, _) = played(SESSION);
    let game = Game { n: 4, ..game };
    assert_eq!(game.try_step(s), 0);
    let matters = |&position: &usize| {
        [0, 1, 2, 5].iter().any(|&value| {
            let mut changed = game.clone();
            changed.set(place, position, value);
            changed.try_step(s) == 6
        })
    };
    (1..WIDTH).filter(matters).collect()
}

#[test]
fn refusal_6_in_step_2() {
    assert_eq!(positions_that_matter(&[2, 2, 1], 1), [3]);
    assert_eq!(numbers("1 3 2, 2 4 1"), [0, 6]);
}

#[test]
fn refusal_6_in_steps_3_and_38() {
    // all of the Initiate; all of the Invoice but its maker
    for (code, _) in PAYS {
        let s = [code, 3, 1, 2];
        assert_eq!(positions_that_matter(&s, 1), (1..=6).collect::<Vec<_>>());
        assert_eq!(positions_that_matter(&s, 2), (2..=14).collect::<Vec<_>>());
        assert_eq!(numbers(&format!("1 3 2, 2 2 1, {code} 4 1 2")), [0, 0, 6]);
    }
}

#[test]
fn steps_3_and_38_ask_for_account_b_and_not_for_drawer_b() {
    // drawer 0 in both messages: accepted; account 5 in both: refused
    let [initiate, invoice, ..] = session_messages();
    let both = |position: usize, value: u16| {
        let mut game = Game::of(&[initiate.clone(), invoice.clone()]);
        game.set(1, 4 + position, value);
        game.set(2, 6 + position, value);
        game.set(2, 12 + position, value);
        game
    };
    for (code, key) in PAYS {
        let mut game = both(0, 0);
        assert_eq!(game.play(&[code, 3, 1, 2]), (0, 3));
        let slip = [key, 2, 3, 0, 1, 3, 3, 0, 1];
        let mark = [2, 3, 0, 1, 3];
        assert_eq!(game.message(3), join(&[&[3, 3, 3, 2], &slip, &[3], &slip, &mark]));
        assert_eq!(both(2, 5).try_step(&[code, 3, 1, 2]), 6);
    }
}

#[test]
fn refusal_6_in_step_4() {
    // the Invoice's maker, source, destination and mark, not its signature;
    // all of the Payment but its maker
    let s = [4, 2, 2, 3];
    assert_eq!(positions_that_matter(&s, 2), (1..=8).collect::<Vec<_>>());
    assert_eq!(positions_that_matter(&s, 3), (2..=27).collect::<Vec<_>>());
    assert_eq!(numbers("1 3 2, 2 2 1, 3 3 1 2, 4 1 2 3"), [0, 0, 0, 6]);
}

#[test]
fn step_4_asks_for_a_mark_of_the_two() {
    // the same mark in Invoice and Payment, but of another seller or buyer
    for (mark, number) in
        [([2, 3, 3, 1, 3], 0), ([5, 3, 3, 1, 3], 6), ([2, 5, 3, 1, 3], 6), ([2, 3, 9, 9, 9], 0)]
    {
        let slip = [1, 2, 3, 3, 1, 3, 3, 3, 1];
        let invoice = join(&[&[2, 2, 2, 3], &mark, &[2], &mark]);
        let payment = join(&[&[3, 3, 3, 2], &slip, &[3], &slip, &mark]);
        assert_eq!(Game::of(&[invoice, payment]).try_step(&[4, 2, 1, 2]), number);
    }
}

#[test]
fn step_4_does_not_open_the_slip() {
    // a slip under key 0 with other contents, signed as it is, goes along
    let [_, invoice, ..] = session_messages();
    let mark = [2, 3, 3, 1, 3];
    let slip = [0, 9, 8, 7, 6, 5, 4, 3, 2];
    let payment = join(&[&[3, 0, 3, 2], &slip, &[3], &slip, &mark]);
    let mut game = Game::of(&[invoice, payment]);
    assert_eq!(game.play(&[4, 2, 1, 2]), (0, 3));
    let request = join(&[&[4, 2, 2, 1], &mark, &slip, &[2], &mark, &slip, &[3], &slip, &mark]);
    assert_eq!(game.message(3), request);
}

#[test]
fn step_4_trusts_no_invoice_by_its_source() {
    // the same Invoice made by the outsider
    assert_eq!(numbers("1 3 2, 2 2 1, 3 3 1 2, 8 2 3 2 2, 4 2 4 3"), [0, 0, 0, 0, 6]);
    // steps 3 and 38 take it all the same
    for (code, _) in PAYS {
        assert_eq!(numbers(&format!("1 3 2, 2 2 1, 8 2 3 2 2, {code} 3 1 3")), [0; 4]);
    }
}

#[test]
fn refusal_6_in_step_5() {
    // all of the Auth-Request but its maker
    assert_eq!(positions_that_matter(&[5, 4], 4), (2..=47).collect::<Vec<_>>());
}

#[test]
fn step_5_asks_for_key_1_and_the_mark_in_the_slip() {
    // the same slip in all three parts, but under key 0 or with another mark
    let mark = [2, 3, 3, 1, 3];
    for (slip, number) in [
        ([1, 2, 3, 3, 1, 3, 3, 3, 1], 0),
        ([0, 2, 3, 3, 1, 3, 3, 3, 1], 6),
        ([1, 5, 3, 3, 1, 3, 3, 3, 1], 6),
        ([1, 2, 3, 3, 2, 3, 3, 3, 1], 6),
    ] {
        let request = join(&[&[4, 2, 2, 1], &mark, &slip, &[2], &mark, &slip, &[3], &slip, &mark]);
        assert_eq!(Game::of(&[request]).try_step(&[5, 1]), number);
    }
}

#[test]
fn step_5_rebuilds_the_mark_from_the_slip() {
    // the mark of one account everywhere, the slip's own account another
    for (mark, slip_end) in [
        ([2, 3, 3, 1, 3], [5, 3, 1]),
        ([2, 3, 3, 1, 3], [3, 5, 1]),
        ([2, 3, 3, 1, 3], [3, 3, 2]),
        ([2, 5, 3, 1, 3], [3, 3, 1]),
        ([5, 3, 3, 1, 3], [3, 3, 1]),
    ] {
        let slip = [&[1], &mark[..], &slip_end[..]].concat();
        let buyer = slip_end[0];
        let request =
            join(&[&[4, 2, 2, 1], &mark, &slip, &[2], &mark, &slip, &[buyer], &slip, &mark]);
        assert_eq!(Game::of(&[request]).try_step(&[5, 1]), 6);
    }
}

#[test]
fn seller_must_sign_the_slip_too() {
    // the seller's signature over the right mark, but over another slip
    let mark = [2, 3, 3, 1, 3];
    let slip = [1, 2, 3, 3, 1, 3, 3, 3, 1];
    let other = [1, 2, 3, 3, 1, 3, 3, 3, 2];
    for (seller_slip, number) in [(slip, 0), (other, 6)] {
        let request =
            join(&[&[4, 2, 2, 1], &mark, &slip, &[2], &mark, &seller_slip, &[3], &slip, &mark]);
        assert_eq!(Game::of(&[request]).try_step(&[5, 1]), number);
    }
}

// ---------------------------------------------------------------------------
// Forged steps
// ---------------------------------------------------------------------------

/// The arguments of a code, by the paper's letters.
fn sorts(code: u16) -> &'static str {
    let all = "BSh Sar SBmv SBhv Sarv SBm SBh Sar BSep Sarmp Sarp BSem BSeh Sear Sarm Sar \
               Smeqp SBheqp Sarqp Smep SBhep Sarp Smeq SBheq Sarq Sme SBhe Sar Scg Scm SBch Scar";
    all.split_whitespace().nth(usize::from(code) - 6).unwrap()
}

// Parts of the mixed game's messages, no two alike.
const H1: [u16; 3] = [0, 100, 6];
const M2: [u16; 5] = [4, 5, 6, 101, 7];
const V2: [u16; 6] = [8, 9, 10, 11, 102, 12];
const E3: [u16; 9] = [0, 4, 5, 6, 103, 7, 8, 9, 104];
const P3: [u16; 15] = [10, 1, 11, 12, 13, 105, 14, 15, 1, 106, 2, 3, 4, 107, 5];
const M4: [u16; 5] = [6, 7, 8, 108, 9];
const E4: [u16; 9] = [0, 10, 11, 12, 109, 13, 14, 15, 110];
const Q4: [u16; 15] = [1, 2, 3, 4, 111, 5, 1, 6, 7, 8, 112, 9, 10, 11, 113];
const P4: [u16; 15] = [12, 0, 13, 14, 15, 114, 1, 2, 3, 115, 4, 5, 6, 116, 7];
const G5: [u16; 7] = [1, 2, 8, 9, 10, 117, 11];
const H6: [u16; 3] = [7, 118, 8];
const E7: [u16; 9] = [1, 4, 5, 6, 119, 7, 8, 0, 120];

/// Seven lawful messages that no run reaches: an Initiate of drawer 0, an
/// Invoice, a Payment and an Auth-Request with slips under key 0, a reply,
/// an Initiate of drawer 7, and a Payment with a slip under key 1.
fn mixed_game() -> Game {
    Game::of(&[
        join(&[&[1, 3, 4, 5], &H1]),
        join(&[&[2, 1, 2, 3], &M2, &V2]),
        join(&[&[3, 1, 2, 3], &E3, &P3]),
        join(&[&[4, 1, 2, 0], &M4, &E4, &Q4, &P4]),
        join(&[&[5, 0, 0, 3], &[1], &G5]),
        join(&[&[1, 7, 7, 5], &H6]),
        join(&[&[3, 1, 2, 3], &E7, &P3]),
    ])
}

/// For every forged code a step that is accepted in the mixed game.
fn mixed_steps() -> impl Iterator<Item = (u16, Vec<u16>)> {
    let value = |sort| match sort {
        'B' => 13,
        'S' => 14,
        'c' => 1,
        sort => *holders(sort).last().unwrap(),
    };
    (6..=37).map(move |code| (code, sorts(code).chars().map(value).collect()))
}

/// Plays one forged step in the mixed game and compares the message.
fn forges(s: &[u16], parts: &[&[u16]]) {
    let mut game = mixed_game();
    assert_eq!(game.play(s), (0, 8), "{s:?}");
    assert_eq!(game.message(8), join(parts), "{s:?}");
}

#[test]
fn forged_initiates() {
    forges(&[6, 13, 14, 1], &[&[1, 0, 13, 14], &H1]);
    forges(&[6, 13, 14, 6], &[&[1, 0, 13, 14], &H6]);
    // own account, draw from an Initiate of drawer 0
    forges(&[7, 14, 0, 1], &[&[1, 0, 0, 14], &[0, 100, 0]]);
    // account out of a Payment's slip, draw out of an Auth-Request's, and the
    // other way round
    forges(&[7, 14, 3, 4], &[&[1, 0, 8, 14], &[15, 110, 8]]);
    forges(&[7, 14, 4, 3], &[&[1, 0, 14, 14], &[9, 104, 14]]);
}

#[test]
fn forged_invoices() {
    let built_h = [14, 13, 7, 118, 8];
    let built_r = [14, 8, 15, 110, 8];
    forges(&[8, 14, 13, 2, 2], &[&[2, 0, 14, 13], &M2, &V2]);
    forges(&[8, 14, 13, 4, 2], &[&[2, 0, 14, 13], &M4, &V2]);
    forges(&[9, 14, 13, 6, 2], &[&[2, 0, 14, 13], &built_h, &V2]);
    forges(&[10, 14, 3, 4, 2], &[&[2, 0, 14, 8], &built_r, &V2]);
    forges(&[11, 14, 13, 4], &[&[2, 0, 14, 13], &M4, &[0], &M4]);
    forges(&[12, 14, 13, 6], &[&[2, 0, 14, 13], &built_h, &[0], &built_h]);
    forges(&[13, 14, 3, 4], &[&[2, 0, 14, 8], &built_r, &[0], &built_r]);
    let own = [14, 0, 0, 100, 0];
    forges(&[13, 14, 0, 1], &[&[2, 0, 14, 0], &own, &[0], &own]);
}

#[test]
fn forged_payments_with_a_copied_signature() {
    forges(&[14, 13, 14, 7, 4], &[&[3, 0, 13, 14], &E7, &P4]);
    forges(&[14, 13, 14, 4, 3], &[&[3, 0, 13, 14], &E4, &P3]);
    // account 8 out of message 3, drawer and draw out of message 4
    forges(&[15, 14, 3, 4, 2, 4], &[&[3, 0, 8, 14], &[1], &M2, &[8, 15, 110], &P4]);
    let mark = [14, 8, 15, 110, 8];
    forges(&[16, 14, 3, 4, 3], &[&[3, 0, 8, 14], &[1], &mark, &[8, 15, 110], &P3]);
}

#[test]
fn forged_payments_signed_by_0() {
    // codes 17 to 19: the mark signed is not the slip's own
    forges(&[17, 13, 14, 3, 4], &[&[3, 0, 13, 14], &E3, &[0], &E3, &M4]);
    let built_h = [14, 13, 7, 118, 8];
    forges(&[18, 13, 14, 4, 6], &[&[3, 0, 13, 14], &E4, &[0], &E4, &built_h]);
    let built_r = [14, 8, 15, 110, 8];
    forges(&[19, 14, 7, 3, 4], &[&[3, 0, 8, 14], &E7, &[0], &E7, &built_r]);

    let slip_m = [&[1], &M4[..], &[8, 15, 110]].concat();
    forges(&[20, 14, 3, 4, 4], &[&[3, 0, 8, 14], &slip_m, &[0], &slip_m, &M4]);
    let slip_r = [&[1], &built_r[..], &[8, 15, 110]].concat();
    forges(&[21, 14, 3, 4], &[&[3, 0, 8, 14], &slip_r, &[0], &slip_r, &built_r]);
}

#[test]
fn forged_requests() {
    let head = [4, 0, 14, 1];
    let hash = [14, 13, 7, 118, 8];
    let own = [14, 8, 15, 110, 8];
    let slip = [&[1], &own[..], &[8, 15, 110]].concat();
    for (codes, mark, slip, args) in [
        ([22, 25, 28, 31], M2, &E7[..], &[14, 2, 7][..]),
        ([22, 25, 28, 31], M4, &E4, &[14, 4, 4]),
        ([23, 26, 29, 32], hash, &E3, &[14, 13, 6, 3]),
        ([24, 27, 30, 33], own, &slip, &[14, 3, 4]),
    ] {
        let q0 = [&[0], &mark[..], slip].concat();
        let p0 = [&[0], slip, &mark[..]].concat();
        let with = |code: u16, rest: &[u16]| [&[code], args, rest].concat();
        forges(&with(codes[0], &[4, 3]), &[&head, &mark, slip, &Q4, &P3]);
        forges(&with(codes[0], &[4, 4]), &[&head, &mark, slip, &Q4, &P4]);
        forges(&with(codes[1], &[4]), &[&head, &mark, slip, &q0, &P4]);
        forges(&with(codes[2], &[4]), &[&head, &mark, slip, &Q4, &p0]);
        forges(&with(codes[3], &[]), &[&head, &mark, slip, &q0, &p0]);
    }
}

#[test]
fn forged_responses() {
    // code 34 keeps the copied signature's own code
    forges(&[34, 14, 1, 5], &[&[5, 0, 1, 14], &[1], &G5]);
    forges(&[34, 14, 2, 5], &[&[5, 0, 1, 14], &[2], &G5]);
    forges(&[35, 14, 2, 4], &[&[5, 0, 1, 14], &[2], &[0, 2], &M4]);
    forges(&[36, 14, 13, 1, 6], &[&[5, 0, 1, 14], &[1], &[0, 1], &[14, 13, 7, 118, 8]]);
    forges(&[37, 14, 2, 3, 4], &[&[5, 0, 1, 14], &[2], &[0, 2], &[14, 8, 15, 110, 8]]);
    forges(&[37, 14, 1, 0, 1], &[&[5, 0, 1, 14], &[1], &[0, 1], &[14, 0, 0, 100, 0]]);
}

// ---------------------------------------------------------------------------
// Run
// ---------------------------------------------------------------------------

#[test]
fn refusals_of_a_run_and_what_they_leave() {
    let list = [1, 3, 2, 0, 0, 0, 0, 2, 2, 1, 0, 0, 0, 0];
    let refused = |length: usize, steps: &[u16], bytes: usize| {
        let mut record = vec![7; length];
        let mut verdicts = vec![99; bytes];
        let (number, n) = run(&mut record, 8, steps, &mut verdicts);
        assert_eq!(n, 0);
        assert!(record.iter().all(|&number| number == 7));
        assert!(verdicts.iter().all(|&byte| byte == 99));
        number
    };
    let long = vec![0; (MAX_STEPS + 1) * STEP];
    assert_eq!(refused(47, &list, 2), 1);
    assert_eq!(refused((ROOM + 1) * WIDTH, &list, 2), 1);
    assert_eq!(refused(WIDTH, &list[..13], 2), 8);
    assert_eq!(refused(WIDTH, &long, MAX_STEPS + 1), 8);
    assert_eq!(refused(WIDTH, &list, 1), 9);
    assert_eq!(refused(WIDTH, &list, 0), 9);
    // first in order wins
    assert_eq!(refused(47, &list[..13], 0), 1);
    assert_eq!(refused(WIDTH, &list[..13], 0), 8);
    assert_eq!(refused(WIDTH, &long, 0), 8);
}

#[test]
fn a_run_plays_every_step_and_no_more() {
    let list: Vec<u16> =
        [&[1, 3, 2][..], &[2, 3, 1], &[99], &[2, 2, 1]].iter().flat_map(|s| full(s)).collect();
    let mut record = vec![7; 4 * WIDTH];
    let mut verdicts = [99; 6];
    assert_eq!(run(&mut record, 8, &list, &mut verdicts), (0, 2));
    assert_eq!(verdicts, [0, 6, 2, 0, 99, 99]);
    assert_eq!(record[..2 * WIDTH], session_messages()[..2].concat());
    assert!(record[2 * WIDTH..].iter().all(|&number| number == 7));
}

#[test]
fn a_run_takes_1024_steps_and_an_empty_list() {
    let list = vec![0; MAX_STEPS * STEP];
    let mut verdicts = [99; MAX_STEPS];
    assert_eq!(run(&mut [], 8, &list, &mut verdicts), (0, 0));
    assert_eq!(verdicts, [2; MAX_STEPS]);
    assert_eq!(run(&mut [7; WIDTH], 8, &[], &mut []), (0, 0));
}

// ---------------------------------------------------------------------------
// Report
// ---------------------------------------------------------------------------

#[test]
fn refusals_of_a_report() {
    let (game, _) = played(SESSION);
    assert_eq!(report(&game.record[1..], 4, 5), 1);
    assert_eq!(report(&vec![0; (ROOM + 1) * WIDTH], 0, 0), 1);
    assert_eq!(report(&[0; WIDTH], 2, 0), 1);
    assert_eq!(report(&[], 0, 0), 4);
    assert_eq!(game.report(0), 4);
    assert_eq!(game.report(6), 4);
    assert_eq!(game.report(usize::MAX), 4);
    for place in 1..=4 {
        assert_eq!(game.report(place), 5);
    }
    assert_eq!(game.report(5), 20);
}

#[test]
fn report_5_on_a_reply_not_made_by_the_house() {
    let (mut game, _) = played(SESSION);
    // a forged copy of the reply, in all but its maker
    assert_eq!(game.play(&[34, 2, 1, 5]), (0, 6));
    assert_eq!(game.message(6)[2..], game.message(5)[2..]);
    assert_eq!(game.report(6), 5);
    // the maker decides, whatever source and signer
    game.set(6, 1, 1);
    game.set(6, 2, 0);
    game.set(6, 5, 0);
    assert_eq!(game.report(6), 20);
}

#[test]
fn report_22_if_any_number_of_the_four_is_another() {
    let (game, _) = played(SESSION);
    let used = [7, 15, 28, 48];
    for (place, used) in (1..).zip(used) {
        for position in 1..used {
            let mut changed = game.clone();
            let value = if game.message(place)[position] == 1 { 0 } else { 1 };
            changed.set(place, position, value);
            let said = changed.report(5);
            // a draw may not be 0, so it is changed to 2
            if said == 1 {
                changed.set(place, position, 2);
            }
            assert_eq!(changed.report(5), 22, "message {place}, position {position}");
        }
    }
}

#[test]
fn report_22_if_one_of_the_four_is_missing_or_late() {
    let all = session_messages();
    assert_eq!(Game::of(&all).report(5), 20);
    for left_out in 0..4 {
        let mut rest = all.to_vec();
        let late = rest.remove(left_out);
        assert_eq!(Game::of(&rest).report(4), 22);
        rest.push(late);
        assert_eq!(Game::of(&rest).report(4), 22);
    }
    // their order does not matter
    let mut turned = all.to_vec();
    turned[..4].reverse();
    assert_eq!(Game::of(&turned).report(5), 20);
}

/// A session of these two with a mark of another account.
fn session_on_account(buyer: u16, seller: u16, account: u16) -> Game {
    let hashed = [buyer, 1, account];
    let mark = [&[seller, buyer], &hashed[..]].concat();
    let slip = [&[1], &mark[..], &[account, buyer, 1]].concat();
    Game::of(&[
        join(&[&[1, buyer, buyer, seller], &hashed]),
        join(&[&[2, seller, seller, buyer], &mark, &[seller], &mark]),
        join(&[&[3, buyer, buyer, seller], &slip, &[buyer], &slip, &mark]),
        join(&[
            &[4, seller, seller, 1],
            &mark,
            &slip,
            &[seller],
            &mark,
            &slip,
            &[buyer],
            &slip,
            &mark,
        ]),
        join(&[&[5, 1, 1, seller, 1], &[1, 1], &mark]),
    ])
}

#[test]
fn report_asks_for_the_buyers_own_account() {
    assert_eq!(session_on_account(3, 2, 3).report(5), 20);
    assert_eq!(session_on_account(3, 2, 4).report(5), 22);
    assert_eq!(session_on_account(0, 2, 4).report(5), 22);
}

#[test]
fn report_leaves_out_only_the_outsider_with_himself() {
    assert_eq!(session_on_account(0, 2, 0).report(5), 20);
    assert_eq!(session_on_account(3, 0, 3).report(5), 20);
    assert_eq!(session_on_account(0, 0, 0).report(5), 21);
    // 21 whatever the account, and with nothing else there
    assert_eq!(session_on_account(0, 0, 4).report(5), 21);
    let alone = join(&[&[5, 1, 1, 9, 2], &[0, 1], &[0, 0, 5, 9, 6]]);
    assert_eq!(Game::of(&[alone]).report(1), 21);
}

#[test]
fn report_reads_the_signed_mark_alone() {
    let mut game = Game::of(&session_messages());
    for (position, value) in [(2, 0), (3, 9), (4, 2), (5, 0), (6, 2)] {
        game.set(5, position, value);
        assert_eq!(game.report(5), 20);
    }
}

// ---------------------------------------------------------------------------
// Step text
// ---------------------------------------------------------------------------

/// Reads a text into a table of nines.
fn read(text: &[u8]) -> (TextRead, Vec<u16>) {
    let mut steps = vec![9; MAX_STEPS * STEP];
    let said = read_text(text, &mut steps);
    (said, steps)
}

/// Number and line of a refused text, which must leave the table as it was.
fn refused(text: &[u8]) -> (u8, u16) {
    let (said, steps) = read(text);
    assert_ne!(said.number, 0, "{}", text.escape_ascii());
    assert_eq!((said.answers, said.count), (0, 0));
    assert!(steps.iter().all(|&number| number == 9));
    let prints = format!("E\t{}\t{}\n", said.number, said.line);
    assert_eq!(bench(text), prints.into_bytes());
    (said.number, said.line)
}

#[test]
fn accepted_text_goes_to_the_front_of_the_table() {
    let (said, steps) = read(b"A\t65535\n1\t3\t2\n0\n65535\t1\t2\t3\t4\t5\t10000\n");
    assert_eq!((said.number, said.answers, said.count), (0, 65_535, 3));
    let expected = [&full(&[1, 3, 2])[..], &[0; 7], &[65_535, 1, 2, 3, 4, 5, 10_000]].concat();
    assert_eq!(steps[..21], expected);
    assert!(steps[21..].iter().all(|&number| number == 9));
}

#[test]
fn text_of_line_1_alone() {
    let (said, _) = read(b"A\t0\n");
    assert_eq!((said.number, said.answers, said.count), (0, 0, 0));
    assert_eq!(bench(b"A\t0\n"), b"");
}

#[test]
fn refusal_10_for_line_1() {
    for text in [
        "",
        "\n",
        "A",
        "A\n",
        "A\t",
        "A\t\n",
        "A\t8",
        "A 8\n",
        "A8\n",
        "a\t8\n",
        "8\n",
        "1\t3\t2\n",
        "A\t08\n",
        "A\t65536\n",
        "A\t100000\n",
        "A\t8\t\n",
        "A\t8\t1\n",
        "A\t\t8\n",
        " A\t8\n",
        "A\t8 \n",
        "A\t8\r\n",
        "A\t-8\n",
        "A\t+8\n",
        "\tA\t8\n",
        "AA\t8\n",
    ] {
        assert_eq!(refused(text.as_bytes()), (10, 1));
    }
}

#[test]
fn refusal_10_for_other_lines() {
    for line in [
        "\n",
        "1",
        "1\t3\t2",
        "\t\n",
        "1\t\n",
        "\t1\n",
        "1\t\t2\n",
        "1 2\n",
        "1\t 2\n",
        "1\t2 \n",
        "1\t2\r\n",
        "01\n",
        "00\n",
        "1\t02\n",
        "65536\n",
        "99999\n",
        "100000\n",
        "000001\n",
        "1\t2\t3\t4\t5\t6\t7\t8\n",
        "A\n",
        "A\t8\n",
        "-1\n",
        "+1\n",
        "1.0\n",
        "0x1\n",
        "1\0\n",
        "\u{661}\n",
    ] {
        let second = format!("A\t8\n{line}");
        let fourth = format!("A\t8\n1\t3\t2\n0\n{line}");
        assert_eq!(refused(second.as_bytes()), (10, 2));
        assert_eq!(refused(fourth.as_bytes()), (10, 4));
    }
    // the first unreadable line counts
    assert_eq!(refused(b"A\t8\n1\nx\n1\ny\n"), (10, 3));
    assert_eq!(refused(b"A\t8\n1\t\xff\n"), (10, 2));
}

#[test]
fn refusal_11_for_bytes() {
    // 4 bytes of line 1 and 1,024 lines of 16 bytes are 4 too many
    let line = "10000\t10000\t100\n";
    assert_eq!(line.len(), 16);
    let exact = format!("A\t8\n{}10000\t10000\n", line.repeat(1_023));
    assert_eq!(exact.len(), MAX_TEXT);
    assert_eq!(read(exact.as_bytes()).0.number, 0);
    let over = format!("A\t8\n{}10000\t100000\n", line.repeat(1_023));
    assert_eq!(refused(over.as_bytes()), (11, 0));
    // before any line is looked at
    assert_eq!(refused(&[b'x'; MAX_TEXT + 1]), (11, 0));
    assert_eq!(refused(&[b'x'; MAX_TEXT]), (10, 1));
    assert_eq!(program(&[b'x'; 5 * MAX_TEXT]), b"E\t11\t0\n");
}

#[test]
fn refusal_11_for_the_step_table() {
    let mut short = vec![9; MAX_STEPS * STEP - 1];
    for text in [&b"A\t8\n"[..], b"x"] {
        let said = read_text(text, &mut short);
        assert_eq!(said, TextRead { number: 11, answers: 0, count: 0, line: 0 });
        assert!(short.iter().all(|&number| number == 9));
    }
    let mut longer = vec![9; MAX_STEPS * STEP + 1];
    assert_eq!(read_text(b"A\t8\n", &mut longer).number, 0);
}

#[test]
fn refusal_11_for_the_1025th_step() {
    let most = format!("A\t8\n{}", "1\t3\t2\n".repeat(MAX_STEPS));
    let (said, steps) = read(most.as_bytes());
    assert_eq!((said.number, said.answers, said.count), (0, 8, 1_024));
    assert!(steps.chunks(STEP).all(|s| s == [1, 3, 2, 0, 0, 0, 0]));
    assert_eq!(refused(format!("{most}1\t3\t2\n").as_bytes()), (11, 0));
    // 10 before 11 on one line, 11 before 10 on a later one
    assert_eq!(refused(format!("{most}1\t3\t2").as_bytes()), (10, 1_026));
    assert_eq!(refused(format!("{most}\n").as_bytes()), (10, 1_026));
    assert_eq!(refused(format!("{most}1\nx\n").as_bytes()), (11, 0));
}

#[test]
fn the_program_stops_at_512_messages() {
    let most = format!("A\t8\n{}", "1\t3\t2\n".repeat(MAX_STEPS));
    let mut expected = String::new();
    for ordinal in 1..=1_024 {
        let (number, place) = if ordinal <= 512 { (0, ordinal) } else { (7, 0) };
        expected += &format!("{ordinal}\t{number}\t{place}\n");
    }
    assert_eq!(bench(most.as_bytes()), expected.into_bytes());
}

#[test]
fn reports_are_printed_by_place() {
    // two replies to one request, and one between the outsider and himself
    let list = "A 0 / 1 3 2 / 2 2 1 / 3 3 1 2 / 4 2 2 3 / 5 4 / 1 0 0 / 33 0 0 6 / 5 7 / 5 4 / \
                34 2 1 5";
    let prints = "1 0 1 / 2 0 2 / 3 0 3 / 4 0 4 / 5 0 5 / 6 0 6 / 7 0 7 / 8 0 8 / 9 0 9 / 10 0 10 \
                  / R 5 2 3 20 / R 8 0 0 21 / R 9 2 3 20";
    assert_eq!(bench(&text(list)), text(prints));
}

// ---------------------------------------------------------------------------
// Lists of the generator
// ---------------------------------------------------------------------------

/// The texts that the generator writes for a seed.
fn generated(seed: &str) -> Vec<Vec<u8>> {
    let dir = Path::new(env!("CARGO_TARGET_TMPDIR")).join(format!("lists-{seed}"));
    let _ = fs::remove_dir_all(&dir);
    let status = Command::new(env!("CARGO_BIN_EXE_lists"))
        .args([seed, "80"])
        .arg(&dir)
        .stdout(Stdio::null())
        .status();
    assert!(status.unwrap().success());
    let mut files: Vec<_> = fs::read_dir(&dir).unwrap().map(|file| file.unwrap().path()).collect();
    files.sort();
    files.iter().map(|file| fs::read(file).unwrap()).collect()
}

#[test]
fn a_run_agrees_with_its_steps_one_by_one() {
    let mut accepted = BTreeSet::new();
    for text in generated("7") {
        let (said, steps) = read(&text);
        assert_eq!(said.number, 0);
        let list = &steps[..usize::from(said.count) * STEP];
        let mut record = vec![0; ROOM * WIDTH];
        let mut verdicts = vec![0; list.len() / STEP];
        let (number, n) = run(&mut record, said.answers, list, &mut verdicts);
        assert_eq!(number, 0);

        let mut game = Game { answers: said.answers, ..Game::new() };
        for (s, &verdict) in list.chunks(STEP).zip(&verdicts) {
            let (number, place) = game.play(s);
            assert_eq!(number, verdict);
            assert_eq!(usize::from(place), if number == 0 { game.n } else { 0 });
            if number == 0 {
                accepted.insert(s[0]);
            }
        }
        assert_eq!((game.n, &game.record), (usize::from(n), &record));
    }
    assert_eq!(accepted, (1..=38).collect());
}

#[test]
fn a_shorter_list_leaves_the_first_messages_of_a_longer_one() {
    for text in generated("8").iter().take(20) {
        let (said, steps) = read(text);
        let play = |count: usize| {
            let mut record = vec![0; ROOM * WIDTH];
            let mut verdicts = vec![0; count];
            let (_, n) = run(&mut record, said.answers, &steps[..count * STEP], &mut verdicts);
            record.truncate(usize::from(n) * WIDTH);
            record
        };
        let all = usize::from(said.count);
        assert!(play(all).starts_with(&play(all / 2)));
    }
}

#[test]
fn report_22_never_occurs_after_a_run() {
    let mut said = BTreeSet::new();
    for text in generated("9") {
        let prints = String::from_utf8(bench(&text)).unwrap();
        let reports = prints.lines().filter(|line| line.starts_with('R'));
        said.extend(reports.map(|line| line.split('\t').nth(4).unwrap().to_string()));
    }
    assert_eq!(said, BTreeSet::from(["20".to_string(), "21".to_string()]));
}
