//! Pseudo-random step lists that really play: honest sessions, some with a
//! buyer sent to the false gateway, mixed with forged steps of every code,
//! among them copies of honest messages that differ in one thing, and steps
//! with faults.

use crate::dice::Dice;
use independent::{step, takes, Arg, Words, STEP, WIDTH};

/// The longest line a step can have: seven numbers of five digits.
const LONGEST_LINE: usize = 42;
/// The most steps that are played in one go.
const LONGEST_SCRIPT: usize = 10;

/// Short lists to play among the others: some of the paper's, some in which
/// one condition of an honest step fails and no other, and some that forge with
/// what a slip under key 0 shows. Here b and s stand for parties, and .3 for
/// the message that the third step added.
const SCRIPTS: [&str; 31] = [
    "1 0 s, 2 s .1, 3 0 .1 .2, 4 s .2 .3, 5 .4",
    "1 0 s, 2 s .1, 33 s 0 .1, 5 .3",
    "1 0 0, 2 0 .1, 33 0 0 .1, 5 .3",
    "1 b 0, 2 0 .1, 3 b .1 .2, 25 0 .2 .3 .3, 5 .4",
    "1 b s, 2 s .1, 3 b .1 .2, 4 s .2 .3, 22 s .2 .3 .4 .3, 5 .5",
    "1 b s, 7 s 0 .1, 1 0 s, 7 s 0 .3",
    // step 3: the account, the Initiate's source
    "1 0 s, 6 b s .1, 2 s .2, 3 b .2 .3",
    "1 0 s, 6 b s .1, 2 s .1, 3 0 .2 .3",
    // step 4: the maker, the source, the mark's seller, the mark's buyer
    "1 b s, 2 s .1, 3 b .1 .2, 8 s b .2 .2, 4 s .4 .3",
    "1 b 0, 2 0 .1, 3 b .1 .2, 8 s b .2 .2, 4 0 .4 .3",
    "1 b s, 2 s .1, 3 b .1 .2, 11 0 b .2, 14 b 0 .3 .3, 4 0 .4 .5",
    "1 b 0, 2 0 .1, 3 b .1 .2, 8 0 0 .2 .2, 17 0 0 .3 .2, 4 0 .4 .5",
    // step 5: the slip's mark; the slip and the mark that the seller signed;
    // the slip and the mark that the buyer signed
    "1 0 0, 1 b s, 2 s .2, 20 0 0 .1 .3, 32 0 0 .1 .4, 5 .5",
    "1 0 s, 2 s .1, 3 0 .1 .2, 1 0 s, 2 s .4, 3 0 .4 .5, 17 0 s .6 .2, 4 s .2 .7, \
     28 s .2 .3 .8, 5 .9",
    "1 0 s, 2 s .1, 3 0 .1 .2, 1 0 s, 2 s .4, 17 0 s .3 .5, 4 s .5 .6, 22 s .2 .3 .7 .3, 5 .8",
    "1 0 s, 2 s .1, 3 0 .1 .2, 4 s .2 .3, 1 0 s, 2 s .5, 3 0 .5 .6, 17 0 s .7 .2, \
     22 s .2 .3 .4 .8, 5 .9",
    "1 0 s, 2 s .1, 3 0 .1 .2, 4 s .2 .3, 1 0 s, 2 s .5, 17 0 s .3 .6, 22 s .2 .3 .4 .7, 5 .8",
    // a slip under key 0: refused by the house, then paid again under key 1
    "1 b s, 2 s .1, 38 b .1 .2, 4 s .2 .3, 5 .4",
    "1 b s, 2 s .1, 38 b .1 .2, 3 b .1 .2, 4 s .2 .4, 5 .5",
    // account and draw out of such a slip, for an Initiate and for Invoices
    "1 b s, 2 s .1, 38 b .1 .2, 7 s .3 .3, 2 s .4, 3 b .1 .5, 38 b .4 .5",
    "1 b s, 2 s .1, 38 b .1 .2, 10 s .3 .3 .2, 38 b .1 .4, 13 s .3 .3, 3 b .1 .6",
    // for Payments: signed under the other key, under the same, and by buyer 0
    "1 b s, 2 s .1, 38 b .1 .2, 15 s .3 .3 .2 .3, 4 s .2 .4, 16 s .3 .3 .3, 4 s .2 .6",
    "1 b s, 2 s .1, 38 b .1 .2, 3 b .1 .2, 15 s .3 .3 .2 .4, 4 s .2 .5, 5 .6",
    "1 b s, 2 s .1, 38 b .1 .2, 3 b .1 .2, 16 s .3 .3 .4, 4 s .2 .5, 5 .6",
    "1 0 s, 2 s .1, 38 0 .1 .2, 19 s .3 .3 .3, 20 s .3 .3 .2, 4 s .2 .5, 21 s .3 .3, 4 s .2 .7, \
     5 .6, 5 .8",
    // for requests: signed under the other key or by 0, and under the same
    "1 b s, 2 s .1, 38 b .1 .2, 4 s .2 .3, 24 s .3 .3 .4 .3, 5 .5, 30 s .3 .3 .4, 5 .7, \
     33 s .3 .3, 5 .9",
    "1 b s, 2 s .1, 38 b .1 .2, 3 b .1 .2, 4 s .2 .4, 24 s .3 .3 .5 .4, 5 .6",
    "1 b 0, 2 0 .1, 38 b .1 .2, 27 0 .3 .3 .3, 5 .4",
    "1 b 0, 2 0 .1, 38 b .1 .2, 3 b .1 .2, 27 0 .3 .3 .4, 5 .5",
    "1 0 0, 2 0 .1, 38 0 .1 .2, 33 0 .3 .3, 5 .4",
    // for replies
    "1 b s, 2 s .1, 38 b .1 .2, 37 s 1 .3 .3, 34 s 2 .4",
];

/// A buyer and a seller on their way through the five kinds of message. Any
/// of the messages so far may be forged.
#[derive(Clone)]
struct Session {
    buyer: u16,
    seller: u16,
    places: Vec<u16>,
}

/// A list while it is being made, with the record it has played so far.
pub struct List<'a> {
    dice: &'a mut Dice,
    pub record: Vec<u16>,
    pub n: usize,
    pub answers: u16,
    /// The few parties of this list, the outsider among them.
    buyers: [u16; 3],
    sellers: [u16; 3],
    /// Sessions under way, and those that are over or were branched off.
    sessions: Vec<Session>,
    closed: Vec<Session>,
    /// The steps, and the number that each was given.
    pub steps: Vec<[u16; STEP]>,
    pub numbers: Vec<u8>,
    pub text: Vec<u8>,
}

impl<'a> List<'a> {
    /// An empty list on a record with room for this many messages, which is
    /// at least one.
    pub fn new(dice: &'a mut Dice, room: usize) -> Self {
        let answers = dice.next() as u16;
        let mut party = || dice.between(1, 15);
        let buyers = [0, party(), party()];
        let sellers = [0, party(), party()];
        List {
            dice,
            record: vec![0; room * WIDTH],
            n: 0,
            answers,
            buyers,
            sellers,
            sessions: Vec::new(),
            closed: Vec::new(),
            steps: Vec::new(),
            numbers: Vec::new(),
            text: format!("A\t{answers}\n").into_bytes(),
        }
    }

    /// Plays and writes up to this many steps and bytes of text, and fewer
    /// than a script's length short of one of the two.
    pub fn fill(mut self, steps: usize, bytes: usize) -> Self {
        self.outsider_begins();
        let may_go_on = |list: &Self| {
            list.steps.len() + LONGEST_SCRIPT <= steps
                && list.text.len() + LONGEST_SCRIPT * LONGEST_LINE <= bytes
        };
        while may_go_on(&self) {
            self.move_on();
        }
        self
    }

    /// Every list begins with an Initiate of buyer 0, the source of item r.
    fn outsider_begins(&mut self) {
        let seller = self.dice.pick(&self.sellers);
        self.sessions.push(Session { buyer: 0, seller, places: vec![1] });
        self.play([1, 0, seller, 0, 0, 0, 0]);
    }

    /// One step or a few.
    fn move_on(&mut self) {
        match self.dice.below(100) {
            0..34 => self.advance(),
            34..50 => self.twist(),
            50..55 => self.script(),
            55..82 => {
                let s = self.forged();
                self.play(s);
            }
            82..90 => {
                let s = self.odd_honest();
                self.play(s);
            }
            _ => {
                let s = self.broken();
                self.play(s);
            }
        }
    }

    fn play(&mut self, s: [u16; STEP]) -> (u8, u16) {
        let (number, place) = step(&mut self.record, self.n, self.answers, s);
        self.n += usize::from(number == 0);
        self.steps.push(s);
        self.numbers.push(number);
        self.write(s);
        (number, place)
    }

    /// Arguments that are 0 at the end are mostly left off.
    fn write(&mut self, s: [u16; STEP]) {
        let least = if self.dice.chance(85) { 1 } else { 1 + self.dice.below(STEP) };
        let used = s.iter().rposition(|&v| v != 0).map_or(1, |last| last + 1);
        let numbers: Vec<String> = s[..used.max(least)].iter().map(u16::to_string).collect();
        self.text.extend_from_slice(numbers.join("\t").as_bytes());
        self.text.push(b'\n');
    }

    fn message(&self, place: u16) -> &Words {
        &self.record.as_chunks().0[usize::from(place) - 1]
    }

    // -- sessions -----------------------------------------------------------

    /// Takes one session on by a message, honest or forged. A buyer who was
    /// sent to the false gateway may pay again under key 1; both Payments stand.
    fn advance(&mut self) {
        let i = self.open_session();
        let session = self.sessions[i].clone();
        let kind = session.places.len() + 1;
        let s = if self.dice.chance(70) {
            self.misled(honest(&session, kind))
        } else {
            let code = self.forged_code(kind);
            self.arguments(code, Some(&session))
        };
        let (mut number, mut place) = self.play(s);
        if s[0] == 38 && number == 0 && self.dice.chance(40) {
            (number, place) = self.play(honest(&session, 3));
        }
        if number == 0 {
            self.sessions[i].places.push(place);
        }
        if kind == 5 || (number != 0 && self.dice.chance(50)) {
            let over = self.sessions.swap_remove(i);
            self.closed.push(over);
        }
    }

    /// The step as it is, but one buyer in five who pays has been given the
    /// false gateway's key: he takes step 38 instead of 3.
    fn misled(&mut self, mut s: [u16; STEP]) -> [u16; STEP] {
        if s[0] == 3 && self.dice.chance(20) {
            s[0] = 38;
        }
        s
    }

    /// One of at most four sessions under way.
    fn open_session(&mut self) -> usize {
        if self.sessions.is_empty() || (self.sessions.len() < 4 && self.dice.chance(30)) {
            let buyer = self.dice.pick(&self.buyers);
            let seller = self.dice.pick(&self.sellers);
            self.sessions.push(Session { buyer, seller, places: Vec::new() });
        }
        self.dice.below(self.sessions.len())
    }

    /// Any forged code that adds this kind of message.
    fn forged_code(&mut self, kind: usize) -> u16 {
        let (first, last) = [(6, 7), (8, 13), (14, 21), (22, 33), (34, 37)][kind - 1];
        self.dice.between(first, last)
    }

    // -- twists -------------------------------------------------------------

    /// Forges a copy of one message of a session, mostly with one argument
    /// changed, then takes an honest step on it in place of the first.
    fn twist(&mut self) {
        let Some(mut session) = self.any_session() else {
            return self.advance();
        };
        let last = session.places.len().min(4);
        let kind = if self.dice.chance(60) { last } else { 1 + self.dice.below(last) };
        let mut s = self.copy(&session, kind);
        if self.dice.chance(85) {
            self.change_one(&mut s, &session);
        }
        let (number, place) = self.play(s);
        if number == 0 {
            session.places[kind - 1] = place;
            self.go_on_from(session, kind);
        }
    }

    /// A session under way or closed that has a message.
    fn any_session(&mut self) -> Option<Session> {
        let all = self.sessions.iter().chain(&self.closed);
        let begun: Vec<&Session> = all.filter(|session| !session.places.is_empty()).collect();
        if begun.is_empty() {
            None
        } else {
            Some(begun[self.dice.below(begun.len())].clone())
        }
    }

    /// A forged step for a message like the one the session has.
    fn copy(&mut self, session: &Session, kind: usize) -> [u16; STEP] {
        let Session { buyer: b, seller: s, ref places } = *session;
        match (kind, &places[..]) {
            (1, &[i, ..]) => [6, b, s, i, 0, 0, 0],
            (2, &[i, v, ..]) => self.dice.pick(&[
                [8, s, b, v, v, 0, 0],
                [9, s, b, i, v, 0, 0],
                [11, s, b, v, 0, 0, 0],
                [12, s, b, i, 0, 0, 0],
            ]),
            (3, &[i, v, p, ..]) => self.dice.pick(&[
                [14, b, s, p, p, 0, 0],
                [17, b, s, p, v, 0, 0],
                [18, b, s, p, i, 0, 0],
            ]),
            (_, &[i, v, p, q, ..]) => self.dice.pick(&[
                [22, s, v, p, q, p, 0],
                [23, s, b, i, p, q, p],
                [25, s, v, p, p, 0, 0],
                [28, s, v, p, q, 0, 0],
                [31, s, v, p, 0, 0, 0],
            ]),
            _ => [1, b, s, 0, 0, 0, 0],
        }
    }

    /// Changes one argument to another that is good in itself.
    fn change_one(&mut self, s: &mut [u16; STEP], session: &Session) {
        let args = takes(s[0]).unwrap_or_default();
        let i = self.dice.below(args.len());
        s[i + 1] = match args[i] {
            arg if arg.is_place() => self.another(arg, s[i + 1], session),
            arg => self.argument(arg, None),
        };
    }

    /// Another place with the item, of the same two parties if it can be.
    fn another(&mut self, arg: Arg, place: u16, session: &Session) -> u16 {
        let same =
            |other: &&Session| (other.buyer, other.seller) == (session.buyer, session.seller);
        let others: Vec<u16> = self
            .sessions
            .iter()
            .chain(&self.closed)
            .filter(same)
            .flat_map(|other| &other.places)
            .copied()
            .filter(|&other| other != place && arg.held_by(self.message(other)))
            .collect();
        if others.is_empty() {
            self.place(arg, None)
        } else {
            self.dice.pick(&others)
        }
    }

    /// An honest step that reads the session's message of this kind. What
    /// comes of it is a session of its own.
    fn go_on_from(&mut self, mut session: Session, kind: usize) {
        let later = kind < 3 && session.places.len() > kind && self.dice.chance(50);
        let code = kind + 1 + usize::from(later);
        let s = self.misled(honest(&session, code));
        let (number, place) = self.play(s);
        if number == 0 {
            session.places.truncate(code - 1);
            session.places.push(place);
        }
        self.closed.push(session);
    }

    // -- scripts ------------------------------------------------------------

    /// Plays a script for two parties, now and then with a fault in a step or
    /// with a buyer sent to the false gateway.
    fn script(&mut self) {
        let script = self.dice.pick(&SCRIPTS);
        let parties = (self.dice.pick(&self.buyers), self.dice.pick(&self.sellers));
        let mut places = Vec::new();
        for line in script.split(", ") {
            let mut s = self.misled(scripted(line, parties, &places));
            if self.dice.chance(4) {
                let i = 1 + self.dice.below(6);
                s[i] = self.fault(s[0], i);
            }
            places.push(self.play(s).1);
        }
    }

    // -- single steps -------------------------------------------------------

    /// A forged step of any code; one whose items are all there if it can.
    fn forged(&mut self) -> [u16; STEP] {
        let mut code = 6;
        for _ in 0..8 {
            code = self.dice.between(6, 37);
            if self.can_have(code) {
                break;
            }
        }
        self.arguments(code, None)
    }

    /// Whether for each place the code takes, some message holds the item.
    fn can_have(&self, code: u16) -> bool {
        let needs = |arg: &Arg| arg.is_place() && *arg != Arg::Account;
        let args = takes(code).unwrap_or_default();
        args.iter().filter(|arg| needs(arg)).all(|&arg| !self.holders(arg).is_empty())
    }

    /// An honest step on any messages of the right kinds, mostly in the name
    /// of the party that they concern.
    fn odd_honest(&mut self) -> [u16; STEP] {
        let code = self.dice.pick(&[2, 3, 4, 5, 38]);
        let mut s = self.arguments(code, None);
        let in_record = (1..=self.n).contains(&usize::from(s[2]));
        if code != 5 && in_record && self.dice.chance(80) {
            let position = if code == 2 { 3 } else { 2 };
            s[1] = self.message(s[2])[position] % 16;
        }
        s
    }

    /// A step with one to three faults.
    fn broken(&mut self) -> [u16; STEP] {
        let mut s = if self.dice.chance(70) { self.forged() } else { self.odd_honest() };
        for _ in 0..1 + self.dice.below(3) {
            let i = if self.dice.chance(8) { 0 } else { 1 + self.dice.below(6) };
            s[i] = self.fault(s[0], i);
        }
        s
    }

    /// A number that is mostly wrong at this position of a step.
    fn fault(&mut self, code: u16, position: usize) -> u16 {
        let after = self.n as u16 + 1;
        let any = self.dice.between(1, self.n as u16);
        let arg = takes(code).and_then(|args| args.get(position.checked_sub(1)?));
        match arg {
            _ if position == 0 => self.dice.pick(&[0, 39, 40, 255, 256, 65_535]),
            Some(Arg::Buyer | Arg::Seller) => self.dice.pick(&[16, 17, 255, 256, 65_535]),
            Some(Arg::Code) => self.dice.pick(&[0, 3, 16, 257, 65_535]),
            Some(_) => self.dice.pick(&[0, after, 512, 513, 65_535, any, any, any]),
            None => self.dice.pick(&[1, 2, 15, 16, 65_535]),
        }
    }

    // -- arguments ----------------------------------------------------------

    /// A step of this code, with the session's parties and messages if there
    /// is one and they will do. Item r stands right behind item a, and where a
    /// is out of a slip, r is mostly out of the same.
    fn arguments(&mut self, code: u16, session: Option<&Session>) -> [u16; STEP] {
        let mut s = [0; STEP];
        s[0] = code;
        for (i, &arg) in takes(code).unwrap_or_default().iter().enumerate() {
            s[i + 1] = match arg {
                Arg::Nonce if s[i] != 0 && self.dice.chance(60) => s[i],
                _ => self.argument(arg, session),
            };
        }
        s
    }

    fn argument(&mut self, arg: Arg, session: Option<&Session>) -> u16 {
        let session = if self.dice.chance(80) { session } else { None };
        match (arg, session) {
            (Arg::Buyer, Some(session)) => session.buyer,
            (Arg::Seller, Some(session)) => session.seller,
            (Arg::Buyer, None) => self.dice.pick(&self.buyers),
            (Arg::Seller, None) => self.dice.pick(&self.sellers),
            (Arg::Code, _) => self.dice.between(1, 2),
            (Arg::Account, _) if self.takes_own_account() => 0,
            _ => self.place(arg, session),
        }
    }

    /// Whether item a is the outsider's own account, as it nearly always must
    /// be while no slip shows him another.
    fn takes_own_account(&mut self) -> bool {
        let shown = !self.holders(Arg::Account).is_empty();
        self.dice.chance(if shown { 40 } else { 97 })
    }

    /// A place: mostly one that holds the item, of the session if it can be.
    fn place(&mut self, arg: Arg, session: Option<&Session>) -> u16 {
        let everywhere = self.holders(arg);
        let inside: Vec<u16> = session
            .map(|session| &session.places[..])
            .unwrap_or_default()
            .iter()
            .copied()
            .filter(|place| everywhere.contains(place))
            .collect();
        if everywhere.is_empty() || self.dice.chance(2) {
            self.dice.between(1, self.n as u16)
        } else if inside.is_empty() {
            self.recent(&everywhere)
        } else {
            self.dice.pick(&inside)
        }
    }

    /// Half of the time one of the last few, so that messages meet.
    fn recent(&mut self, places: &[u16]) -> u16 {
        if self.dice.chance(50) {
            let last = &places[places.len().saturating_sub(4)..];
            self.dice.pick(last)
        } else {
            self.dice.pick(places)
        }
    }

    /// The places of all messages that hold the item.
    fn holders(&self, arg: Arg) -> Vec<u16> {
        (1..=self.n as u16).filter(|&place| arg.held_by(self.message(place))).collect()
    }
}

/// The session's honest step of this code, when it has the messages for it.
fn honest(session: &Session, code: usize) -> [u16; STEP] {
    let (buyer, seller) = (session.buyer, session.seller);
    match (code, &session.places[..]) {
        (2, &[initiate, ..]) => [2, seller, initiate, 0, 0, 0, 0],
        (3, &[initiate, invoice, ..]) => [3, buyer, initiate, invoice, 0, 0, 0],
        (4, &[_, invoice, payment, ..]) => [4, seller, invoice, payment, 0, 0, 0],
        (5, &[_, _, _, request, ..]) => [5, request, 0, 0, 0, 0, 0],
        _ => [1, buyer, seller, 0, 0, 0, 0],
    }
}

/// One step of a script, for these parties and the places added so far.
fn scripted(line: &str, (buyer, seller): (u16, u16), places: &[u16]) -> [u16; STEP] {
    let mut s = [0; STEP];
    for (number, word) in s.iter_mut().zip(line.split_whitespace()) {
        *number = match word {
            "b" => buyer,
            "s" => seller,
            _ => match word.strip_prefix('.').map(str::parse::<usize>) {
                Some(ordinal) => places[ordinal.unwrap() - 1],
                None => word.parse().unwrap(),
            },
        };
    }
    s
}
