//! Pseudo-random lawful records that mostly no run reaches: messages of all
//! five kinds, slips under key 0, and sessions in which one number is
//! another. The limits of the positions stand here a second time, so that an
//! error in the program's own table shows.

use crate::dice::Dice;
use independent::{takes, Arg, Words, ROOM, STEP, WIDTH};

macro_rules! mark {
    () => {
        "pppdp"
    };
}

macro_rules! slip {
    () => {
        concat!("g", mark!(), "ppd")
    };
}

/// For kinds 1 to 5 what stands at the positions from 1 on: p a buyer,
/// seller or account, g a gateway or key, d a draw, c a response code.
const SORTS: [&str; 5] = [
    "ppppdp",
    concat!("ppp", mark!(), "p", mark!()),
    concat!("ppp", slip!(), "p", slip!(), mark!()),
    concat!("ppg", mark!(), slip!(), "p", mark!(), slip!(), "p", slip!(), mark!()),
    concat!("ggpcgc", mark!()),
];

/// The least and the greatest lawful number at a position.
fn limits(kind: u16, position: usize) -> (u16, u16) {
    let sorts = SORTS[usize::from(kind) - 1].as_bytes();
    match position.checked_sub(1).map(|i| sorts.get(i)) {
        None => (1, 5),
        Some(None) => (0, 0),
        Some(Some(b'p')) => (0, 15),
        Some(Some(b'g')) => (0, 1),
        Some(Some(b'd')) => (1, ROOM as u16),
        Some(Some(_)) => (1, 2),
    }
}

/// A message from its parts, 0 behind them.
fn join(parts: &[&[u16]]) -> Words {
    let mut w = [0; WIDTH];
    for (to, &from) in w.iter_mut().zip(parts.iter().copied().flatten()) {
        *to = from;
    }
    w
}

/// The codes of the honest steps.
pub const HONEST: [u16; 6] = [1, 2, 3, 4, 5, 38];

/// A session as 9 numbers: the mark, then the rest of the slip. In an honest
/// one the slip's account, drawer and draw are the mark's.
#[derive(Clone, Copy)]
pub struct Session {
    pub mark: [u16; 5],
    pub key: u16,
    pub account: u16,
    pub drawer: u16,
    pub draw: u16,
}

impl Session {
    /// The five messages.
    pub fn messages(&self, code: u16) -> [Words; 5] {
        let Session { mark, key, account, drawer, draw } = *self;
        let [s, b, hashed @ ..] = mark;
        let slip: &[u16] = &[&[key], &mark[..], &[account, drawer, draw]].concat();
        let mark = &mark[..];
        [
            join(&[&[1, b, b, s], &hashed]),
            join(&[&[2, s, s, b], mark, &[s], mark]),
            join(&[&[3, b, b, s], slip, &[b], slip, mark]),
            join(&[&[4, s, s, 1], mark, slip, &[s], mark, slip, &[b], slip, mark]),
            join(&[&[5, 1, 1, s], &[code, 1, code], mark]),
        ]
    }

    /// The honest step of a code on messages that stand at these places.
    pub fn step(&self, code: u16, [i, v, p, q]: [u16; 4]) -> [u16; STEP] {
        let [s, b, ..] = self.mark;
        match code {
            1 => [1, b, s, 0, 0, 0, 0],
            2 => [2, s, i, 0, 0, 0, 0],
            3 | 38 => [code, b, i, v, 0, 0, 0],
            4 => [4, s, v, p, 0, 0, 0],
            _ => [5, q, 0, 0, 0, 0, 0],
        }
    }
}

/// The few parties and draws of one record, so that messages meet.
pub struct Few {
    parties: [u16; 4],
    draws: [u16; 3],
}

impl Few {
    pub fn new(dice: &mut Dice) -> Self {
        let parties = [0, dice.between(0, 15), dice.between(1, 14), dice.pick(&[1, 2, 15])];
        let last = ROOM as u16;
        let draws = [dice.between(1, last), dice.between(1, 9), dice.pick(&[1, 2, last - 1, last])];
        Few { parties, draws }
    }

    pub fn party(&self, dice: &mut Dice) -> u16 {
        dice.pick(&self.parties)
    }

    /// A lawful number for a position, mostly one of the few.
    pub fn lawful_number(&self, dice: &mut Dice, kind: u16, position: usize) -> u16 {
        match limits(kind, position) {
            (0, 15) if dice.chance(90) => self.party(dice),
            (1, 512) if dice.chance(90) => dice.pick(&self.draws),
            (low, high) => dice.between(low, high),
        }
    }

    /// A lawful message of this kind.
    pub fn message(&self, dice: &mut Dice, kind: u16) -> Words {
        let mut w = [kind; WIDTH];
        for (position, number) in w.iter_mut().enumerate().skip(1) {
            *number = self.lawful_number(dice, kind, position);
        }
        w
    }

    /// A session, honest or nearly.
    pub fn session(&self, dice: &mut Dice) -> Session {
        let (seller, buyer) = (self.party(dice), self.party(dice));
        let other = |dice: &mut Dice| if dice.chance(90) { buyer } else { self.party(dice) };
        let (drawer, draw, account) = (other(dice), dice.pick(&self.draws), other(dice));
        let mark = [seller, buyer, drawer, draw, account];
        Session { mark, key: 1, account, drawer, draw }
    }

    /// The session with one of its 9 numbers another, or the key 0.
    pub fn nearly(&self, dice: &mut Dice, mut session: Session) -> Session {
        let (party, draw) = (self.party(dice), dice.pick(&self.draws));
        match dice.below(10) {
            3 => session.mark[3] = draw,
            i @ 0..5 => session.mark[i] = party,
            5 => session.account = party,
            6 => session.drawer = party,
            7 => session.draw = draw,
            _ => session.key = 0,
        }
        session
    }

    /// A record of this many messages: some of two sessions, some of none.
    pub fn record(&self, dice: &mut Dice, n: usize) -> Vec<Words> {
        let first = self.session(dice);
        let second = self.session(dice);
        let sessions = [first, first, self.nearly(dice, first), second, self.nearly(dice, second)];
        (0..n).map(|_| self.one_of(dice, &sessions)).collect()
    }

    fn one_of(&self, dice: &mut Dice, sessions: &[Session]) -> Words {
        let kind = dice.between(1, 5);
        if dice.chance(40) {
            return self.message(dice, kind);
        }
        let code = dice.between(1, 2);
        let mut w = dice.pick(sessions).messages(code)[usize::from(kind) - 1];
        if dice.chance(30) {
            let position = 1 + dice.below(WIDTH - 1);
            w[position] = self.lawful_number(dice, kind, position);
        }
        w
    }

    /// A step of any code on a record, mostly on messages that will do.
    pub fn step(&self, dice: &mut Dice, record: &[Words]) -> [u16; STEP] {
        let mut s = [0; STEP];
        s[0] = dice.between(1, 38);
        for (i, &arg) in takes(s[0]).unwrap_or_default().iter().enumerate() {
            s[i + 1] = match arg {
                Arg::Buyer | Arg::Seller => self.party(dice),
                Arg::Code => dice.between(1, 2),
                Arg::Account if dice.chance(25) => 0,
                _ => place(dice, record, arg),
            };
        }
        if dice.chance(60) {
            self.put_right(&mut s, record);
        }
        if dice.chance(12) {
            let i = if dice.chance(20) { 0 } else { 1 + dice.below(STEP - 1) };
            let after = record.len() as u16 + 1;
            s[i] = dice.pick(&[0, 1, 2, 3, 15, 16, 38, 39, 512, 513, 65_535, after, after - 1]);
        }
        s
    }

    /// In an honest step, the party whom the first message named concerns.
    fn put_right(&self, s: &mut [u16; STEP], record: &[Words]) {
        let position = if s[0] == 2 { 3 } else { 2 };
        if let (2..=4 | 38, Some(w)) = (s[0], record.get(usize::from(s[2]).wrapping_sub(1))) {
            s[1] = w[position];
        }
    }
}

/// A place in the record, mostly of a message that holds the item.
fn place(dice: &mut Dice, record: &[Words], arg: Arg) -> u16 {
    let holders: Vec<u16> =
        (1..).zip(record).filter(|(_, w)| arg.held_by(w)).map(|(place, _)| place).collect();
    if holders.is_empty() || dice.chance(4) {
        dice.between(0, record.len() as u16 + 1)
    } else {
        dice.pick(&holders)
    }
}
