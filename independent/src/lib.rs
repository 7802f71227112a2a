//! A second, independent implementation of the rules, which are paper 01 and
//! request 1 of paper 02: one step against a record of messages, a run of a
//! list, a report on a reply, a reader for the step text, and what the program
//! prints.
//!
//! It is written from these papers alone and in its own style. Every message
//! has a struct of its own, the argument table drives the checks numbered 3, 4
//! and 5, and a forged message is filled in by the "without" rules of 01.

/// 16-bit numbers to a message.
pub const WIDTH: usize = 48;
/// The most messages a record has room for.
pub const ROOM: usize = 512;
/// Numbers to a step.
pub const STEP: usize = 7;
/// The most steps in a list.
pub const MAX_STEPS: usize = 1_024;
/// The most bytes in a step text.
pub const MAX_TEXT: usize = 16_384;

/// One message as it stands in the record.
pub type Words = [u16; WIDTH];

/// Gateway 1, the house; also its key.
const HOUSE: u16 = 1;
/// The outsider, as buyer, seller or gateway; also his account, and the key of
/// his false gateway.
const OUTSIDER: u16 = 0;

/// Why something is refused, with the paper's numbers.
#[derive(Clone, Copy)]
enum Refusal {
    Record = 1,
    StepCode = 2,
    Range = 3,
    Place = 4,
    Item = 5,
    Condition = 6,
    Room = 7,
    List = 8,
    Verdicts = 9,
    Line = 10,
    TextSize = 11,
}

impl Refusal {
    fn number(self) -> u8 {
        self as u8
    }
}

/// The refusal `otherwise`, unless the condition holds.
fn demand(condition: bool, otherwise: Refusal) -> Result<(), Refusal> {
    if condition {
        Ok(())
    } else {
        Err(otherwise)
    }
}

// ---------------------------------------------------------------------------
// Parts of messages
// ---------------------------------------------------------------------------

/// A drawer and his draw.
#[derive(Clone, Copy, Default, PartialEq, Eq)]
struct Nonce {
    drawer: u16,
    draw: u16,
}

/// A hashed account: drawer, draw, account.
#[derive(Clone, Copy, PartialEq, Eq)]
struct Hashed {
    nonce: Nonce,
    account: u16,
}

/// A mark, the hash of Common: seller, buyer, hashed account.
#[derive(Clone, Copy, PartialEq, Eq)]
struct Mark {
    seller: u16,
    buyer: u16,
    hashed: Hashed,
}

/// A slip: gateway key, mark, account, drawer, draw.
#[derive(Clone, Copy, PartialEq, Eq)]
struct Slip {
    key: u16,
    mark: Mark,
    account: u16,
    nonce: Nonce,
}

/// The signature in an Invoice.
#[derive(Clone, Copy)]
struct InvoiceSign {
    signer: u16,
    mark: Mark,
}

/// The buyer's signature, in a Payment and an Auth-Request.
#[derive(Clone, Copy, PartialEq, Eq)]
struct BuyerSign {
    signer: u16,
    slip: Slip,
    mark: Mark,
}

/// The seller's signature in an Auth-Request.
#[derive(Clone, Copy, PartialEq, Eq)]
struct SellerSign {
    signer: u16,
    mark: Mark,
    slip: Slip,
}

/// The gateway's signature in an Auth-Response.
#[derive(Clone, Copy)]
struct GatewaySign {
    signer: u16,
    code: u16,
    mark: Mark,
}

impl Nonce {
    fn read(w: &Words, at: usize) -> Self {
        let (drawer, draw) = (w[at], w[at + 1]);
        Nonce { drawer, draw }
    }

    fn write(self, w: &mut Words, at: usize) {
        w[at] = self.drawer;
        w[at + 1] = self.draw;
    }
}

impl Hashed {
    fn read(w: &Words, at: usize) -> Self {
        Hashed { nonce: Nonce::read(w, at), account: w[at + 2] }
    }

    fn write(self, w: &mut Words, at: usize) {
        self.nonce.write(w, at);
        w[at + 2] = self.account;
    }
}

impl Mark {
    fn read(w: &Words, at: usize) -> Self {
        Mark { seller: w[at], buyer: w[at + 1], hashed: Hashed::read(w, at + 2) }
    }

    fn write(self, w: &mut Words, at: usize) {
        w[at] = self.seller;
        w[at + 1] = self.buyer;
        self.hashed.write(w, at + 2);
    }
}

impl Slip {
    fn read(w: &Words, at: usize) -> Self {
        Slip {
            key: w[at],
            mark: Mark::read(w, at + 1),
            account: w[at + 6],
            nonce: Nonce::read(w, at + 7),
        }
    }

    fn write(self, w: &mut Words, at: usize) {
        w[at] = self.key;
        self.mark.write(w, at + 1);
        w[at + 6] = self.account;
        self.nonce.write(w, at + 7);
    }
}

impl InvoiceSign {
    fn read(w: &Words, at: usize) -> Self {
        InvoiceSign { signer: w[at], mark: Mark::read(w, at + 1) }
    }

    fn write(self, w: &mut Words, at: usize) {
        w[at] = self.signer;
        self.mark.write(w, at + 1);
    }
}

impl BuyerSign {
    fn read(w: &Words, at: usize) -> Self {
        BuyerSign { signer: w[at], slip: Slip::read(w, at + 1), mark: Mark::read(w, at + 10) }
    }

    fn write(self, w: &mut Words, at: usize) {
        w[at] = self.signer;
        self.slip.write(w, at + 1);
        self.mark.write(w, at + 10);
    }
}

impl SellerSign {
    fn read(w: &Words, at: usize) -> Self {
        SellerSign { signer: w[at], mark: Mark::read(w, at + 1), slip: Slip::read(w, at + 6) }
    }

    fn write(self, w: &mut Words, at: usize) {
        w[at] = self.signer;
        self.mark.write(w, at + 1);
        self.slip.write(w, at + 6);
    }
}

impl GatewaySign {
    fn read(w: &Words, at: usize) -> Self {
        GatewaySign { signer: w[at], code: w[at + 1], mark: Mark::read(w, at + 2) }
    }

    fn write(self, w: &mut Words, at: usize) {
        w[at] = self.signer;
        w[at + 1] = self.code;
        self.mark.write(w, at + 2);
    }
}

// ---------------------------------------------------------------------------
// Messages
// ---------------------------------------------------------------------------

const INITIATE: u16 = 1;
const INVOICE: u16 = 2;
const PAYMENT: u16 = 3;
const REQUEST: u16 = 4;
const RESPONSE: u16 = 5;

/// Positions 1 to 3 of every message.
#[derive(Clone, Copy)]
struct Head {
    maker: u16,
    source: u16,
    destination: u16,
}

/// Kind 1.
struct Initiate {
    head: Head,
    hashed: Hashed,
}

/// Kind 2.
struct Invoice {
    head: Head,
    mark: Mark,
    signed: InvoiceSign,
}

/// Kind 3.
struct Payment {
    head: Head,
    slip: Slip,
    signed: BuyerSign,
}

/// Kind 4, the Auth-Request.
struct Request {
    head: Head,
    mark: Mark,
    slip: Slip,
    seller_signed: SellerSign,
    buyer_signed: BuyerSign,
}

/// Kind 5, the Auth-Response.
struct Response {
    head: Head,
    code: u16,
    signed: GatewaySign,
}

impl Head {
    /// The head of a message whose maker and source are the same.
    fn honest(source: u16, destination: u16) -> Self {
        Head { maker: source, source, destination }
    }

    /// The head of a message made by the outsider.
    fn forged(source: u16, destination: u16) -> Self {
        Head { maker: OUTSIDER, source, destination }
    }

    fn read(w: &Words) -> Self {
        Head { maker: w[1], source: w[2], destination: w[3] }
    }

    /// A message of this kind and head with nothing else in it yet.
    fn begin(self, kind: u16) -> Words {
        let mut w = [0; WIDTH];
        w[0] = kind;
        w[1] = self.maker;
        w[2] = self.source;
        w[3] = self.destination;
        w
    }
}

impl Initiate {
    fn read(w: &Words) -> Self {
        Initiate { head: Head::read(w), hashed: Hashed::read(w, 4) }
    }

    fn words(&self) -> Words {
        let mut w = self.head.begin(INITIATE);
        self.hashed.write(&mut w, 4);
        w
    }
}

impl Invoice {
    fn read(w: &Words) -> Self {
        Invoice { head: Head::read(w), mark: Mark::read(w, 4), signed: InvoiceSign::read(w, 9) }
    }

    fn words(&self) -> Words {
        let mut w = self.head.begin(INVOICE);
        self.mark.write(&mut w, 4);
        self.signed.write(&mut w, 9);
        w
    }
}

impl Payment {
    fn read(w: &Words) -> Self {
        Payment { head: Head::read(w), slip: Slip::read(w, 4), signed: BuyerSign::read(w, 13) }
    }

    fn words(&self) -> Words {
        let mut w = self.head.begin(PAYMENT);
        self.slip.write(&mut w, 4);
        self.signed.write(&mut w, 13);
        w
    }
}

impl Request {
    fn read(w: &Words) -> Self {
        Request {
            head: Head::read(w),
            mark: Mark::read(w, 4),
            slip: Slip::read(w, 9),
            seller_signed: SellerSign::read(w, 18),
            buyer_signed: BuyerSign::read(w, 33),
        }
    }

    fn words(&self) -> Words {
        let mut w = self.head.begin(REQUEST);
        self.mark.write(&mut w, 4);
        self.slip.write(&mut w, 9);
        self.seller_signed.write(&mut w, 18);
        self.buyer_signed.write(&mut w, 33);
        w
    }
}

impl Response {
    fn words(&self) -> Words {
        let mut w = self.head.begin(RESPONSE);
        w[4] = self.code;
        self.signed.write(&mut w, 5);
        w
    }
}

// The honest messages of one session, as the honest steps make them and as
// the report looks for them.

impl Slip {
    /// The slip under a gateway's key whose account, drawer and draw are those
    /// of its mark.
    fn honest(key: u16, mark: Mark) -> Self {
        let Hashed { nonce, account } = mark.hashed;
        Slip { key, mark, account, nonce }
    }
}

impl Initiate {
    fn honest(buyer: u16, seller: u16, hashed: Hashed) -> Self {
        Initiate { head: Head::honest(buyer, seller), hashed }
    }
}

impl Invoice {
    fn honest(seller: u16, buyer: u16, mark: Mark) -> Self {
        let signed = InvoiceSign { signer: seller, mark };
        Invoice { head: Head::honest(seller, buyer), mark, signed }
    }
}

impl Payment {
    fn honest(buyer: u16, seller: u16, slip: Slip) -> Self {
        let signed = BuyerSign { signer: buyer, slip, mark: slip.mark };
        Payment { head: Head::honest(buyer, seller), slip, signed }
    }
}

impl Request {
    fn honest(seller: u16, mark: Mark, slip: Slip, buyer_signed: BuyerSign) -> Self {
        let seller_signed = SellerSign { signer: seller, mark, slip };
        Request { head: Head::honest(seller, HOUSE), mark, slip, seller_signed, buyer_signed }
    }
}

impl Response {
    fn honest(seller: u16, code: u16, mark: Mark) -> Self {
        let signed = GatewaySign { signer: HOUSE, code, mark };
        Response { head: Head::honest(HOUSE, seller), code, signed }
    }
}

// ---------------------------------------------------------------------------
// Lawful messages and sound records
// ---------------------------------------------------------------------------

/// The least and the greatest number a position may hold.
type Limit = (u16, u16);

const PARTY: Limit = (0, 15);
const GATEWAY: Limit = (0, 1);
const DRAW: Limit = (1, 512);
const CODE: Limit = (1, 2);

const HASHED: [Limit; 3] = [PARTY, DRAW, PARTY];
const MARK: [Limit; 5] = [PARTY, PARTY, PARTY, DRAW, PARTY];
const SLIP: [Limit; 9] = [GATEWAY, PARTY, PARTY, PARTY, DRAW, PARTY, PARTY, PARTY, DRAW];

/// What each position of one kind of message may hold.
struct Layout {
    low: Words,
    high: Words,
}

impl Layout {
    /// The parts stand from position 1 on; positions after them are unused.
    const fn new(kind: u16, parts: &[&[Limit]]) -> Self {
        let mut layout = Layout { low: [0; WIDTH], high: [0; WIDTH] };
        layout.low[0] = kind;
        layout.high[0] = kind;
        let mut at = 1;
        let mut part = 0;
        while part < parts.len() {
            let mut i = 0;
            while i < parts[part].len() {
                layout.low[at] = parts[part][i].0;
                layout.high[at] = parts[part][i].1;
                at += 1;
                i += 1;
            }
            part += 1;
        }
        layout
    }
}

/// The layouts of kinds 1 to 5.
static LAYOUTS: [Layout; 5] = [
    Layout::new(INITIATE, &[&[PARTY; 3], &HASHED]),
    Layout::new(INVOICE, &[&[PARTY; 3], &MARK, &[PARTY], &MARK]),
    Layout::new(PAYMENT, &[&[PARTY; 3], &SLIP, &[PARTY], &SLIP, &MARK]),
    Layout::new(
        REQUEST,
        &[&[PARTY, PARTY, GATEWAY], &MARK, &SLIP, &[PARTY], &MARK, &SLIP, &[PARTY], &SLIP, &MARK],
    ),
    Layout::new(RESPONSE, &[&[GATEWAY, GATEWAY, PARTY], &[CODE, GATEWAY, CODE], &MARK]),
];

/// Whether a message is lawful.
fn lawful(w: &Words) -> bool {
    match w[0] {
        INITIATE..=RESPONSE => fits(w, &LAYOUTS[usize::from(w[0] - 1)]),
        _ => false,
    }
}

/// Whether every position is within its limits.
fn fits(w: &Words, layout: &Layout) -> bool {
    (0..WIDTH).fold(true, |good, i| good & (layout.low[i] <= w[i]) & (w[i] <= layout.high[i]))
}

/// Whether a record may have this length.
fn good_length(length: usize) -> bool {
    length.is_multiple_of(WIDTH) && length <= ROOM * WIDTH
}

/// Whether a record of n messages is free of refusal 1.
fn sound(record: &[u16], n: usize) -> bool {
    good_length(record.len())
        && n <= record.len() / WIDTH
        && messages(record)[..n].iter().all(lawful)
}

/// A record of good length, message by message.
fn messages(record: &[u16]) -> &[Words] {
    record.as_chunks().0
}

/// A record of good length, message by message, to be written.
fn messages_mut(record: &mut [u16]) -> &mut [Words] {
    record.as_chunks_mut().0
}

// ---------------------------------------------------------------------------
// Arguments
// ---------------------------------------------------------------------------

/// What an argument of a step stands for.
#[derive(Clone, Copy, Debug, PartialEq, Eq)]
pub enum Arg {
    /// B, a buyer.
    Buyer,
    /// S, a seller.
    Seller,
    /// c, a response code.
    Code,
    /// The place of an Initiate, in an honest step.
    Initiate,
    /// The place of an Invoice, in an honest step.
    Invoice,
    /// The place of a Payment, in an honest step.
    Payment,
    /// The place of an Auth-Request, in an honest step.
    Request,
    /// h, the place of a hashed account.
    Hashed,
    /// m, the place of a mark.
    Mark,
    /// e, the place of a slip.
    Slip,
    /// a, the place of an account, or 0 for the outsider's own.
    Account,
    /// r, the place of a drawer and draw.
    Nonce,
    /// v, the place of an invoice signature.
    InvoiceSign,
    /// q, the place of a seller's request signature.
    SellerSign,
    /// p, the place of a buyer's signature.
    BuyerSign,
    /// g, the place of a gateway signature.
    GatewaySign,
}

/// The arguments that codes 1 to 38 take, in order.
static TAKES: [&[Arg]; 38] = {
    use Arg::{
        Account as A, Buyer as B, BuyerSign as P, Code as C, GatewaySign as G, Hashed as H,
        Initiate, Invoice, InvoiceSign as V, Mark as M, Nonce as R, Payment, Request, Seller as S,
        SellerSign as Q, Slip as E,
    };
    [
        // 1-5 honest
        &[B, S],
        &[S, Initiate],
        &[B, Initiate, Invoice],
        &[S, Invoice, Payment],
        &[Request],
        // 6-7 Initiate
        &[B, S, H],
        &[S, A, R],
        // 8-13 Invoice
        &[S, B, M, V],
        &[S, B, H, V],
        &[S, A, R, V],
        &[S, B, M],
        &[S, B, H],
        &[S, A, R],
        // 14-21 Payment
        &[B, S, E, P],
        &[S, A, R, M, P],
        &[S, A, R, P],
        &[B, S, E, M],
        &[B, S, E, H],
        &[S, E, A, R],
        &[S, A, R, M],
        &[S, A, R],
        // 22-33 Auth-Request
        &[S, M, E, Q, P],
        &[S, B, H, E, Q, P],
        &[S, A, R, Q, P],
        &[S, M, E, P],
        &[S, B, H, E, P],
        &[S, A, R, P],
        &[S, M, E, Q],
        &[S, B, H, E, Q],
        &[S, A, R, Q],
        &[S, M, E],
        &[S, B, H, E],
        &[S, A, R],
        // 34-37 Auth-Response
        &[S, C, G],
        &[S, C, M],
        &[S, B, C, H],
        &[S, C, A, R],
        // 38 honest, as 3
        &[B, Initiate, Invoice],
    ]
};

/// The arguments a code takes; none if it is not 1 to 38.
pub fn takes(code: u16) -> Option<&'static [Arg]> {
    TAKES.get(usize::from(code).checked_sub(1)?).copied()
}

impl Arg {
    /// Whether the argument names a message.
    pub fn is_place(self) -> bool {
        !matches!(self, Arg::Buyer | Arg::Seller | Arg::Code)
    }

    /// Whether a party or a code is in range.
    fn in_range(self, value: u16) -> bool {
        match self {
            Arg::Buyer | Arg::Seller => value <= PARTY.1,
            Arg::Code => value == 1 || value == 2,
            _ => true,
        }
    }

    /// Whether a place is in 1..n, or 0 where that is good.
    fn in_record(self, value: u16, n: usize) -> bool {
        match self {
            Arg::Account => usize::from(value) <= n,
            _ if self.is_place() => value != 0 && usize::from(value) <= n,
            _ => true,
        }
    }

    /// Whether this message holds what the argument stands for.
    pub fn held_by(self, w: &Words) -> bool {
        let kind = w[0];
        match self {
            Arg::Buyer | Arg::Seller | Arg::Code => true,
            Arg::Initiate | Arg::Hashed => kind == INITIATE,
            Arg::Invoice | Arg::InvoiceSign => kind == INVOICE,
            Arg::Payment => kind == PAYMENT,
            Arg::Request | Arg::SellerSign => kind == REQUEST,
            Arg::Mark => kind == INVOICE || kind == REQUEST,
            Arg::Slip | Arg::BuyerSign => kind == PAYMENT || kind == REQUEST,
            Arg::Account => opened_slip(w).is_some(),
            Arg::Nonce => known_nonce(w).is_some(),
            Arg::GatewaySign => kind == RESPONSE,
        }
    }
}

/// The slip of a Payment or an Auth-Request.
fn slip_of(w: &Words) -> Slip {
    Slip::read(w, if w[0] == PAYMENT { 4 } else { 9 })
}

/// The buyer's signature in a Payment or an Auth-Request.
fn buyer_sign_of(w: &Words) -> BuyerSign {
    BuyerSign::read(w, if w[0] == PAYMENT { 13 } else { 33 })
}

/// A slip that the outsider can open: under key 0, his false gateway's.
fn opened_slip(w: &Words) -> Option<Slip> {
    match w[0] {
        PAYMENT | REQUEST => Some(slip_of(w)).filter(|slip| slip.key == OUTSIDER),
        _ => None,
    }
}

/// A drawer and draw that the outsider knows: his own, or from an opened slip.
fn known_nonce(w: &Words) -> Option<Nonce> {
    match w[0] {
        INITIATE => Some(Nonce::read(w, 4)).filter(|nonce| nonce.drawer == OUTSIDER),
        _ => opened_slip(w).map(|slip| slip.nonce),
    }
}

/// The message at a place, which is known to be in the record.
fn at(past: &[Words], place: u16) -> &Words {
    &past[usize::from(place) - 1]
}

/// Whether every used argument is good.
fn every(takes: &[Arg], args: &[u16; 6], good: impl Fn(Arg, u16) -> bool) -> bool {
    takes.iter().zip(args).all(|(&arg, &value)| good(arg, value))
}

/// Refusals 3, 4 and 5: all ranges, then all places, then all items.
fn check_arguments(past: &[Words], takes: &[Arg], args: &[u16; 6]) -> Result<(), Refusal> {
    let unused_are_0 = args[takes.len()..].iter().all(|&value| value == 0);
    demand(unused_are_0 && every(takes, args, Arg::in_range), Refusal::Range)?;

    let in_record = |arg: Arg, value| arg.in_record(value, past.len());
    demand(every(takes, args, in_record), Refusal::Place)?;

    let held = |arg: Arg, value| !arg.is_place() || value == 0 || arg.held_by(at(past, value));
    demand(every(takes, args, held), Refusal::Item)
}

// ---------------------------------------------------------------------------
// Honest steps
// ---------------------------------------------------------------------------

/// Code 1: buyer B begins with seller S; the draw is the new message's place.
fn initiate(past: &[Words], [buyer, seller, ..]: [u16; 6]) -> Words {
    let draw = past.len() as u16 + 1;
    let nonce = Nonce { drawer: buyer, draw };
    Initiate::honest(buyer, seller, Hashed { nonce, account: buyer }).words()
}

/// Code 2: seller S answers an Initiate sent to him.
fn bill(past: &[Words], [seller, initiate, ..]: [u16; 6]) -> Result<Words, Refusal> {
    let initiate = Initiate::read(at(past, initiate));
    demand(initiate.head.destination == seller, Refusal::Condition)?;

    let buyer = initiate.head.source;
    let mark = Mark { seller, buyer, hashed: initiate.hashed };
    Ok(Invoice::honest(seller, buyer, mark).words())
}

/// Codes 3 and 38: buyer B pays on his own Initiate and the Invoice that
/// answers it. The two codes differ in the gateway key of his slip alone.
fn pay(
    past: &[Words],
    key: u16,
    [buyer, initiate, invoice, ..]: [u16; 6],
) -> Result<Words, Refusal> {
    let Initiate { head, hashed } = Initiate::read(at(past, initiate));
    let own = head.maker == buyer && head.source == buyer && hashed.account == buyer;

    let seller = head.destination;
    let mark = Mark { seller, buyer, hashed };
    let Invoice { head, mark: billed, signed } = Invoice::read(at(past, invoice));
    let answered = head.source == seller
        && head.destination == buyer
        && billed == mark
        && signed.mark == mark
        && signed.signer == seller;
    demand(own && answered, Refusal::Condition)?;

    // The mark's account is B's by now, so the slip's is.
    Ok(Payment::honest(buyer, seller, Slip::honest(key, mark)).words())
}

/// Code 4: seller S asks the house about a Payment on his own Invoice.
fn ask(past: &[Words], [seller, invoice, payment, ..]: [u16; 6]) -> Result<Words, Refusal> {
    let Invoice { head, mark, .. } = Invoice::read(at(past, invoice));
    let buyer = head.destination;
    let own = head.maker == seller
        && head.source == seller
        && mark.seller == seller
        && mark.buyer == buyer;

    let Payment { head, slip, signed } = Payment::read(at(past, payment));
    let paid = head.source == buyer
        && head.destination == seller
        && signed == BuyerSign { signer: buyer, slip, mark };
    demand(own && paid, Refusal::Condition)?;

    Ok(Request::honest(seller, mark, slip, signed).words())
}

/// Code 5: the house answers an Auth-Request. The mark is rebuilt from the
/// slip's own account, drawer and draw, and all else must agree with it.
fn answer(past: &[Words], answers: u16, [request, ..]: [u16; 6]) -> Result<Words, Refusal> {
    let request = Request::read(at(past, request));
    let (seller, slip) = (request.head.source, request.slip);
    let owner = slip.account;
    let hashed = Hashed { nonce: slip.nonce, account: slip.account };
    let mark = Mark { seller, buyer: owner, hashed };

    let agreed = request.head.destination == HOUSE
        && slip.key == HOUSE
        && slip.mark == mark
        && request.mark == mark
        && request.seller_signed == SellerSign { signer: seller, mark, slip }
        && request.buyer_signed == BuyerSign { signer: owner, slip, mark };
    demand(agreed, Refusal::Condition)?;

    let good = (answers >> slip.account) & 1 == 1;
    let code = if good { 1 } else { 2 };
    Ok(Response::honest(seller, code, mark).words())
}

// ---------------------------------------------------------------------------
// Forged steps
// ---------------------------------------------------------------------------

/// The items a forged step names. What it does not name is none, and the
/// message is then filled in by the functions below.
#[derive(Default)]
struct Items {
    seller: u16,
    code: u16,
    account: u16,
    nonce: Nonce,
    buyer: Option<u16>,
    hashed: Option<Hashed>,
    mark: Option<Mark>,
    slip: Option<Slip>,
    invoice_sign: Option<InvoiceSign>,
    seller_sign: Option<SellerSign>,
    buyer_sign: Option<BuyerSign>,
    gateway_sign: Option<GatewaySign>,
}

impl Items {
    /// All the items named, from arguments that passed their checks.
    fn gather(past: &[Words], takes: &[Arg], args: &[u16; 6]) -> Self {
        let mut items = Items::default();
        for (&arg, &value) in takes.iter().zip(args) {
            items.take(past, arg, value);
        }
        items
    }

    /// One item.
    fn take(&mut self, past: &[Words], arg: Arg, value: u16) {
        match arg {
            Arg::Buyer => self.buyer = Some(value),
            Arg::Seller => self.seller = value,
            Arg::Code => self.code = value,
            Arg::Account if value == 0 => self.account = OUTSIDER,
            _ => self.take_from(at(past, value), arg),
        }
    }

    /// One item out of the message that holds it.
    fn take_from(&mut self, w: &Words, arg: Arg) {
        match arg {
            Arg::Hashed => self.hashed = Some(Hashed::read(w, 4)),
            Arg::Mark => self.mark = Some(Mark::read(w, 4)),
            Arg::Slip => self.slip = Some(slip_of(w)),
            Arg::Account => self.account = slip_of(w).account,
            Arg::Nonce => self.nonce = known_nonce(w).unwrap_or_default(),
            Arg::InvoiceSign => self.invoice_sign = Some(InvoiceSign::read(w, 9)),
            Arg::SellerSign => self.seller_sign = Some(SellerSign::read(w, 18)),
            Arg::BuyerSign => self.buyer_sign = Some(buyer_sign_of(w)),
            Arg::GatewaySign => self.gateway_sign = Some(GatewaySign::read(w, 5)),
            // The arguments of honest steps and those that are no places.
            _ => {}
        }
    }

    /// Without B, the buyer is the owner of a.
    fn buyer(&self) -> u16 {
        self.buyer.unwrap_or(self.account)
    }

    /// Without h, the hashed account is r with a.
    fn hashed(&self) -> Hashed {
        self.hashed.unwrap_or(Hashed { nonce: self.nonce, account: self.account })
    }

    /// Without m, the mark is (S, buyer, hashed account).
    fn mark(&self) -> Mark {
        self.mark.unwrap_or_else(|| Mark {
            seller: self.seller,
            buyer: self.buyer(),
            hashed: self.hashed(),
        })
    }

    /// Without e, a slip is built under key 1 from that mark, a and r.
    fn slip(&self) -> Slip {
        let Items { account, nonce, .. } = *self;
        self.slip.unwrap_or_else(|| Slip { key: HOUSE, mark: self.mark(), account, nonce })
    }

    fn initiate(&self) -> Words {
        let head = Head::forged(self.buyer(), self.seller);
        Initiate { head, hashed: self.hashed() }.words()
    }

    fn invoice(&self) -> Words {
        let head = Head::forged(self.seller, self.buyer());
        let mark = self.mark();
        let own = InvoiceSign { signer: OUTSIDER, mark };
        Invoice { head, mark, signed: self.invoice_sign.unwrap_or(own) }.words()
    }

    fn payment(&self) -> Words {
        let head = Head::forged(self.buyer(), self.seller);
        let slip = self.slip();
        let own = || BuyerSign { signer: OUTSIDER, slip, mark: self.mark() };
        Payment { head, slip, signed: self.buyer_sign.unwrap_or_else(own) }.words()
    }

    fn request(&self) -> Words {
        let head = Head::forged(self.seller, HOUSE);
        let (mark, slip) = (self.mark(), self.slip());
        let sellers_own = SellerSign { signer: OUTSIDER, mark, slip };
        let buyers_own = BuyerSign { signer: OUTSIDER, slip, mark };
        let seller_signed = self.seller_sign.unwrap_or(sellers_own);
        let buyer_signed = self.buyer_sign.unwrap_or(buyers_own);
        Request { head, mark, slip, seller_signed, buyer_signed }.words()
    }

    fn response(&self) -> Words {
        let head = Head::forged(HOUSE, self.seller);
        let code = self.code;
        let own = || GatewaySign { signer: OUTSIDER, code, mark: self.mark() };
        Response { head, code, signed: self.gateway_sign.unwrap_or_else(own) }.words()
    }
}

// ---------------------------------------------------------------------------
// Step and run
// ---------------------------------------------------------------------------

/// The message a step adds to the messages so far, or why it adds none.
/// Whether there is room for it is not looked at here.
fn made(past: &[Words], answers: u16, step: &[u16; STEP]) -> Result<Words, Refusal> {
    let [code, args @ ..] = *step;
    let takes = takes(code).ok_or(Refusal::StepCode)?;
    check_arguments(past, takes, &args)?;

    let items = || Items::gather(past, takes, &args);
    match code {
        1 => Ok(initiate(past, args)),
        2 => bill(past, args),
        3 => pay(past, HOUSE, args),
        4 => ask(past, args),
        5 => answer(past, answers, args),
        6..=7 => Ok(items().initiate()),
        8..=13 => Ok(items().invoice()),
        14..=21 => Ok(items().payment()),
        22..=33 => Ok(items().request()),
        34..=37 => Ok(items().response()),
        38 => pay(past, OUTSIDER, args),
        // no code without an arm has a row
        _ => Err(Refusal::StepCode),
    }
}

/// Plays one step on a record known to be sound; returns the new place.
fn play(room: &mut [Words], n: usize, answers: u16, step: &[u16; STEP]) -> Result<u16, Refusal> {
    let message = made(&room[..n], answers, step)?;
    *room.get_mut(n).ok_or(Refusal::Room)? = message;
    Ok(n as u16 + 1)
}

/// One step against a record of n messages: its number, and the new place
/// or 0. An accepted step writes the next place and nothing else.
pub fn step(record: &mut [u16], n: usize, answers: u16, s: [u16; 7]) -> (u8, u16) {
    if !sound(record, n) {
        return (Refusal::Record.number(), 0);
    }
    match play(messages_mut(record), n, answers, &s) {
        Ok(place) => (0, place),
        Err(refusal) => (refusal.number(), 0),
    }
}

/// A run of a list from an empty record: its number and n. Each step's own
/// number goes to the verdict bytes; a refused step does not stop the run.
pub fn run(record: &mut [u16], answers: u16, steps: &[u16], verdicts: &mut [u8]) -> (u8, u16) {
    let (list, rest) = steps.as_chunks();
    if !good_length(record.len()) {
        return (Refusal::Record.number(), 0);
    }
    if !rest.is_empty() || list.len() > MAX_STEPS {
        return (Refusal::List.number(), 0);
    }
    if verdicts.len() < list.len() {
        return (Refusal::Verdicts.number(), 0);
    }
    (0, play_all(messages_mut(record), answers, list, verdicts))
}

/// The run proper. Each message it adds is lawful, so none is checked again.
fn play_all(room: &mut [Words], answers: u16, list: &[[u16; STEP]], verdicts: &mut [u8]) -> u16 {
    let mut n = 0;
    for (step, verdict) in list.iter().zip(verdicts) {
        *verdict = match play(room, usize::from(n), answers, step) {
            Ok(place) => {
                n = place;
                0
            }
            Err(refusal) => refusal.number(),
        };
    }
    n
}

// ---------------------------------------------------------------------------
// Report
// ---------------------------------------------------------------------------

const PAID: u8 = 20;
const OUTSIDER_ALONE: u8 = 21;
const UNPAID: u8 = 22;

/// Whether this is a reply that the house made.
fn is_house_reply(w: &Words) -> bool {
    w[0] == RESPONSE && w[1] == HOUSE
}

/// The mark a reply's signature is over.
fn signed_mark(reply: &Words) -> Mark {
    GatewaySign::read(reply, 5).mark
}

/// The four messages of the session that a mark speaks of. The mark settles
/// every position of each.
fn session(mark: Mark) -> [Words; 4] {
    let (buyer, seller) = (mark.buyer, mark.seller);
    let slip = Slip::honest(HOUSE, mark);
    let payment = Payment::honest(buyer, seller, slip);
    [
        Initiate::honest(buyer, seller, mark.hashed).words(),
        Invoice::honest(seller, buyer, mark).words(),
        payment.words(),
        Request::honest(seller, mark, slip, payment.signed).words(),
    ]
}

/// The report on a house reply, given the messages earlier than it.
fn judge(earlier: &[Words], reply: &Words) -> u8 {
    let mark = signed_mark(reply);
    if mark.buyer == OUTSIDER && mark.seller == OUTSIDER {
        return OUTSIDER_ALONE;
    }
    let own_account = mark.hashed.account == mark.buyer;
    if own_account && session(mark).iter().all(|message| earlier.contains(message)) {
        PAID
    } else {
        UNPAID
    }
}

/// The report on the reply at a place.
pub fn report(record: &[u16], n: usize, place: usize) -> u8 {
    if !sound(record, n) {
        return Refusal::Record.number();
    }
    if place == 0 || place > n {
        return Refusal::Place.number();
    }
    let (earlier, from) = messages(record).split_at(place - 1);
    if is_house_reply(&from[0]) {
        judge(earlier, &from[0])
    } else {
        Refusal::Item.number()
    }
}

// ---------------------------------------------------------------------------
// Step text
// ---------------------------------------------------------------------------

/// What the reader says of a text. An accepted text has number 0 and line 0;
/// a refused one has answers 0 and count 0, and a line only with number 10.
#[derive(Clone, Copy, Debug, PartialEq, Eq)]
pub struct TextRead {
    pub number: u8,
    pub answers: u16,
    pub count: u16,
    pub line: u16,
}

/// A refused text: why, and the line.
struct Unread(Refusal, u16);

/// A decimal number: 1 to 5 digits, no needless leading 0, at most 65,535.
fn decimal(digits: &[u8]) -> Option<u16> {
    if digits.is_empty() || digits.len() > 5 || (digits[0] == b'0' && digits.len() > 1) {
        return None;
    }
    let mut value = 0u32;
    for digit in digits {
        if !digit.is_ascii_digit() {
            return None;
        }
        value = value * 10 + u32::from(digit - b'0');
    }
    u16::try_from(value).ok()
}

/// Line 1: `A`, tab, account answers, line feed.
fn answers_line(line: &[u8]) -> Option<u16> {
    decimal(line.strip_suffix(b"\n")?.strip_prefix(b"A\t")?)
}

/// Every other line: a code and up to 6 arguments; those left off are 0.
fn step_line(line: &[u8]) -> Option<[u16; STEP]> {
    let mut step = [0; STEP];
    let mut places = step.iter_mut();
    for number in line.strip_suffix(b"\n")?.split(|&byte| byte == b'\t') {
        *places.next()? = decimal(number)?;
    }
    Some(step)
}

/// Reads the lines in order; returns the answers and the count of steps.
fn read_lines(text: &[u8], found: &mut [[u16; STEP]; MAX_STEPS]) -> Result<(u16, u16), Unread> {
    let mut lines = text.split_inclusive(|&byte| byte == b'\n');
    let first = lines.next().and_then(answers_line);
    let answers = first.ok_or(Unread(Refusal::Line, 1))?;

    let mut count = 0;
    for line in lines {
        let step = step_line(line).ok_or(Unread(Refusal::Line, count + 2))?;
        let free = found.get_mut(usize::from(count));
        *free.ok_or(Unread(Refusal::TextSize, 0))? = step;
        count += 1;
    }
    Ok((answers, count))
}

/// Reads a step text. An accepted text puts its steps at the front of the
/// step table; a refused one leaves the table as found.
pub fn read_text(text: &[u8], steps: &mut [u16]) -> TextRead {
    let refused =
        |Unread(refusal, line)| TextRead { number: refusal.number(), answers: 0, count: 0, line };
    if text.len() > MAX_TEXT || steps.len() < MAX_STEPS * STEP {
        return refused(Unread(Refusal::TextSize, 0));
    }

    let mut found = [[0; STEP]; MAX_STEPS];
    match read_lines(text, &mut found) {
        Ok((answers, count)) => {
            let read = found[..usize::from(count)].as_flattened();
            steps[..read.len()].copy_from_slice(read);
            TextRead { number: 0, answers, count, line: 0 }
        }
        Err(unread) => refused(unread),
    }
}

// ---------------------------------------------------------------------------
// The program
// ---------------------------------------------------------------------------

/// Prints a number in decimal.
fn print_number(out: &mut Vec<u8>, mut number: u16) {
    let mut digits = [0; 5];
    let mut at = digits.len();
    loop {
        at -= 1;
        digits[at] = b'0' + (number % 10) as u8;
        number /= 10;
        if number == 0 {
            break;
        }
    }
    out.extend_from_slice(&digits[at..]);
}

/// Prints numbers parted by tabs and ended by a line feed.
fn print_line(out: &mut Vec<u8>, numbers: &[u16]) {
    for (i, &number) in numbers.iter().enumerate() {
        if i > 0 {
            out.push(b'\t');
        }
        print_number(out, number);
    }
    out.push(b'\n');
}

/// Prints each step's ordinal, number and place. The accepted steps of a run
/// take the places 1, 2, 3 and so on.
fn print_steps(out: &mut Vec<u8>, verdicts: &[u8]) {
    let mut n = 0;
    for (ordinal, &verdict) in (1..).zip(verdicts) {
        let accepted = verdict == 0;
        n += u16::from(accepted);
        print_line(out, &[ordinal, u16::from(verdict), if accepted { n } else { 0 }]);
    }
}

/// Prints, by place, the report on each reply of the house. A record left by
/// a run is sound, so it is not checked again.
fn print_reports(out: &mut Vec<u8>, past: &[Words]) {
    for (i, reply) in past.iter().enumerate() {
        if is_house_reply(reply) {
            let Mark { seller, buyer, .. } = signed_mark(reply);
            let said = judge(&past[..i], reply);
            out.extend_from_slice(b"R\t");
            print_line(out, &[i as u16 + 1, seller, buyer, u16::from(said)]);
        }
    }
}

/// What the program prints for a text.
pub fn bench(text: &[u8]) -> Vec<u8> {
    let mut out = Vec::with_capacity(MAX_TEXT);
    let mut steps = [0; MAX_STEPS * STEP];
    let read = read_text(text, &mut steps);
    if read.number != 0 {
        out.extend_from_slice(b"E\t");
        print_line(&mut out, &[u16::from(read.number), read.line]);
        return out;
    }

    let count = usize::from(read.count);
    let mut record = [0; ROOM * WIDTH];
    let mut verdicts = [0; MAX_STEPS];
    let (_, n) = run(&mut record, read.answers, &steps[..count * STEP], &mut verdicts);
    print_steps(&mut out, &verdicts[..count]);
    print_reports(&mut out, &messages(&record)[..usize::from(n)]);
    out
}
