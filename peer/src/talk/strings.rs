//! Settings strings: good ones of every kind, and bad ones near the edges.

use crate::bytes::three;
use crate::rng::Rng;
use crate::settings::{FileNo, Span, COUNTER_LENGTH, MAC_LENGTH, PICC_DATA_LENGTH, UID_LENGTH};

const FILE_SIZE: usize = 256;

/// The conditions E and F.
const E: u8 = 0xe;
const F: u8 = 0xf;

/// A condition for reading or writing.
fn condition(rng: &mut Rng) -> u8 {
    rng.weighted(&[(6, 0), (3, 1), (3, 2), (3, 3), (3, 4), (8, E), (3, F)])
}

/// The Change condition; F, which locks the file for good, is rare.
fn change_condition(rng: &mut Rng) -> u8 {
    rng.weighted(&[(60, 0), (4, 1), (4, 2), (4, 3), (4, 4), (22, E), (2, F)])
}

/// FileOption without SDM, and rights.
fn front(rng: &mut Rng) -> Vec<u8> {
    let mode = rng.weighted(&[(4, 0), (3, 1), (1, 2), (4, 3)]);
    let [read, write, read_write] = match rng.chance(8) {
        true => [F; 3],
        false => std::array::from_fn(|_| condition(rng)),
    };
    let change = change_condition(rng);
    vec![mode, read_write << 4 | change, read << 4 | write]
}

/// A string that the rules accept for that file.
pub(super) fn good(rng: &mut Rng, file: FileNo, counter: usize) -> Vec<u8> {
    let string = front(rng);
    if file == FileNo::Two && rng.chance(80) {
        let plan = Plan::draw(rng, counter);
        let fields = plan.fields(rng, Order::EncFirst);
        plan.string(rng, string, &fields)
    } else {
        string
    }
}

/// Which mirrors are wanted.
struct Plan {
    meta: u8,
    file_read: u8,
    uid: bool,
    counter: bool,
    enc: Option<usize>,
    limit: Option<usize>,
}

impl Plan {
    fn draw(rng: &mut Rng, counter: usize) -> Plan {
        let meta = rng.weighted(&[(9, 0), (4, 1), (4, 2), (4, 3), (4, 4), (18, E), (7, F)]);
        let file_read = rng.weighted(&[(9, 0), (4, 1), (4, 2), (4, 3), (4, 4), (8, F)]);
        let (uid, both) = (rng.chance(50), rng.chance(60));
        let (uid, counter_too) = match meta {
            F => (false, false),
            E => (uid || both, rng.chance(40) || both),
            _ => (uid || both, !uid || both),
        };
        let enc_fits = file_read != F && uid && counter_too;
        let enc = (enc_fits && rng.chance(65)).then(|| 32 * rng.between(1, 6));
        Plan {
            meta,
            file_read,
            uid,
            counter: counter_too,
            enc,
            limit: rng.chance(25).then(|| limit(rng, counter)),
        }
    }

    fn options(&self) -> u8 {
        u8::from(self.uid) << 7
            | u8::from(self.counter) << 6
            | u8::from(self.limit.is_some()) << 5
            | u8::from(self.enc.is_some()) << 4
            | 1
    }

    /// The lengths of the PICCData mirrors wanted, in the order of their fields.
    fn meta_lengths(&self) -> Vec<usize> {
        match self.meta {
            F => Vec::new(),
            E => {
                let uid = self.uid.then_some(UID_LENGTH);
                let counter = self.counter.then_some(COUNTER_LENGTH);
                uid.into_iter().chain(counter).collect()
            }
            _ => vec![PICC_DATA_LENGTH],
        }
    }

    /// Spans that share no byte, and a MAC input start that fits them.
    fn fields(&self, rng: &mut Rng, order: Order) -> Fields {
        let mut lengths = self.meta_lengths();
        let reads = self.file_read != F;
        let enc = self.enc.filter(|_| reads);
        lengths.extend(enc);
        lengths.extend(reads.then_some(MAC_LENGTH));
        let mut spans = layout(rng, &lengths, order, enc.is_some());
        let mac = if reads { spans.pop() } else { None };
        let enc = enc.and_then(|_| spans.pop());
        let latest = enc.or(mac).map_or(0, |span| span.start);
        let early = rng.below(latest + 1);
        Fields {
            meta: spans,
            input: rng.pick(&[0, latest, early]),
            enc,
            mac,
        }
    }

    /// FileOption and rights in front get SDM switched on and the rest behind them.
    fn string(&self, rng: &mut Rng, front: Vec<u8>, fields: &Fields) -> Vec<u8> {
        let ctr_ret = condition(rng);
        let unused = if rng.chance(70) { F } else { rng.byte() & 15 };
        let mut string = front;
        string[0] |= 0x40;
        string.push(self.options());
        string.push(unused << 4 | ctr_ret);
        string.push(self.meta << 4 | self.file_read);
        let mut put = |number| string.extend(three(number));
        fields.meta.iter().for_each(|span| put(span.start));
        if let Some(mac) = fields.mac {
            put(fields.input);
            if let Some(enc) = fields.enc {
                put(enc.start);
                put(enc.length);
            }
            put(mac.start);
        }
        self.limit.into_iter().for_each(put);
        string
    }
}

/// A limit, mostly about to be reached.
fn limit(rng: &mut Rng, counter: usize) -> usize {
    let near = counter + rng.below(5);
    let any = rng.draw() as usize & 0xff_ffff;
    rng.weighted(&[(1, 0), (2, 1), (2, 2), (10, near), (1, 0xff_ffff), (1, any)])
}

/// Where the mirrors of a plan go.
struct Fields {
    meta: Vec<Span>,
    input: usize,
    enc: Option<Span>,
    mac: Option<Span>,
}

/// Which of ENC and MAC stands in front. The rules want ENC there.
#[derive(Clone, Copy, PartialEq, Eq)]
enum Order {
    EncFirst,
    MacFirst,
}

/// Spans of these lengths, no two of them sharing a byte. The last is the MAC; with ENC,
/// the one before it is ENC.
fn layout(rng: &mut Rng, lengths: &[usize], order: Order, enc: bool) -> Vec<Span> {
    let mut sequence: Vec<usize> = (0..lengths.len()).collect();
    rng.shuffle(&mut sequence);
    if enc {
        let place = |span| sequence.iter().position(|i| *i == span).unwrap_or(0);
        let (of_enc, of_mac) = (place(lengths.len() - 2), place(lengths.len() - 1));
        if (of_enc < of_mac) != (order == Order::EncFirst) {
            sequence.swap(of_enc, of_mac);
        }
    }
    let mut slack = FILE_SIZE - lengths.iter().sum::<usize>();
    let mut spans: Vec<Span> = lengths
        .iter()
        .map(|&length| Span { start: 0, length })
        .collect();
    let mut next = 0;
    for i in sequence {
        let some = rng.below(slack + 1);
        let gap = rng.weighted(&[(3, 0), (5, some), (1, slack)]);
        slack -= gap;
        spans[i].start = next + gap;
        next = spans[i].end();
    }
    spans
}

/// A string near a good one; most are refused.
pub(super) fn bad(rng: &mut Rng, file: FileNo, counter: usize) -> Vec<u8> {
    if file == FileNo::Two && rng.chance(60) {
        twisted(rng, counter)
    } else {
        spoiled(rng, file, counter)
    }
}

/// One rule broken, the form kept.
#[derive(Clone, Copy)]
enum Twist {
    NothingEncrypted,
    MirroredWithF,
    EncWithoutBit,
    EncWithoutFileRead,
    FileReadFree,
    SharedByte,
    PastTheEnd,
    InputTooLate,
    EncBehindMac,
    EncLength,
}

const TWISTS: [(usize, Twist); 10] = [
    (2, Twist::NothingEncrypted),
    (2, Twist::MirroredWithF),
    (2, Twist::EncWithoutBit),
    (1, Twist::EncWithoutFileRead),
    (1, Twist::FileReadFree),
    (5, Twist::SharedByte),
    (3, Twist::PastTheEnd),
    (3, Twist::InputTooLate),
    (3, Twist::EncBehindMac),
    (2, Twist::EncLength),
];

fn twisted(rng: &mut Rng, counter: usize) -> Vec<u8> {
    let front = front(rng);
    let twist = rng.weighted(&TWISTS);
    let mut plan = Plan::draw(rng, counter);
    plan.twist(rng, twist);
    let order = match twist {
        Twist::EncBehindMac => Order::MacFirst,
        _ => Order::EncFirst,
    };
    let mut fields = plan.fields(rng, order);
    fields.twist(rng, twist);
    plan.string(rng, front, &fields)
}

impl Plan {
    /// Breaks a rule that joins options and rights, or makes room to break a later one.
    fn twist(&mut self, rng: &mut Rng, twist: Twist) {
        match twist {
            Twist::NothingEncrypted => {
                self.meta = rng.below(5) as u8;
                (self.uid, self.counter, self.enc) = (false, false, None);
            }
            Twist::MirroredWithF => {
                (self.meta, self.enc) = (F, None);
                (self.uid, self.counter) = rng.pick(&[(true, false), (false, true), (true, true)]);
            }
            Twist::EncWithoutBit => {
                self.ask_for_enc(rng);
                (self.uid, self.counter) = rng.pick(&[(true, false), (false, true)]);
            }
            Twist::EncWithoutFileRead => {
                self.ask_for_enc(rng);
                self.file_read = F;
            }
            Twist::FileReadFree => self.file_read = E,
            Twist::InputTooLate if rng.chance(50) => self.ask_for_enc(rng),
            Twist::InputTooLate => self.file_read = rng.below(5) as u8,
            Twist::EncBehindMac | Twist::EncLength => self.ask_for_enc(rng),
            Twist::SharedByte | Twist::PastTheEnd => (),
        }
    }

    fn ask_for_enc(&mut self, rng: &mut Rng) {
        self.meta = rng.pick(&[0, 1, 2, 3, 4, E]);
        self.file_read = rng.below(5) as u8;
        self.enc = Some(32 * rng.between(1, 5));
        (self.uid, self.counter) = (true, true);
    }
}

impl Fields {
    /// Breaks a rule of positions, by one byte where that can be.
    fn twist(&mut self, rng: &mut Rng, twist: Twist) {
        let latest = self.enc.or(self.mac).map_or(0, |span| span.start);
        match twist {
            Twist::SharedByte => self.share_a_byte(rng),
            Twist::PastTheEnd => {
                let mut spans = self.spans();
                let over = rng.pick(&[1, 1, 2, 256]);
                if let Some(span) = pick_mut(rng, &mut spans) {
                    span.start = FILE_SIZE - span.length + over;
                }
            }
            Twist::InputTooLate => self.input = latest + rng.pick(&[1, 1, 2, 256]),
            Twist::EncBehindMac => self.input = self.mac.map_or(0, |mac| rng.below(mac.start + 1)),
            Twist::EncLength => {
                let wrong = rng.pick(&[0, 16, 31, 33, 48, 256, 0xff_ffff]);
                self.enc.iter_mut().for_each(|enc| enc.length = wrong);
            }
            _ => (),
        }
    }

    fn spans(&mut self) -> Vec<&mut Span> {
        let reads = self.enc.iter_mut().chain(&mut self.mac);
        self.meta.iter_mut().chain(reads).collect()
    }

    /// Moves one span onto the first or last byte of another, if there are two.
    fn share_a_byte(&mut self, rng: &mut Rng) {
        let mut spans = self.spans();
        rng.shuffle(&mut spans);
        if let [moved, other, ..] = &mut spans[..] {
            let behind = other.end() - 1;
            let before = (other.start + 1).saturating_sub(moved.length);
            moved.start = rng.pick(&[behind, before]);
        }
    }
}

fn pick_mut<'a, T>(rng: &mut Rng, list: &'a mut [T]) -> Option<&'a mut T> {
    let place = rng.below(list.len());
    list.get_mut(place)
}

/// How a good string is spoiled, its form too.
#[derive(Clone, Copy)]
enum Spoil {
    Shorter,
    Longer,
    Bit,
    FileOption,
    Nibble,
    Options,
    Cut,
    Noise,
}

const SPOILS: [(usize, Spoil); 8] = [
    (3, Spoil::Shorter),
    (3, Spoil::Longer),
    (3, Spoil::Bit),
    (4, Spoil::FileOption),
    (6, Spoil::Nibble),
    (4, Spoil::Options),
    (2, Spoil::Cut),
    (1, Spoil::Noise),
];

fn spoiled(rng: &mut Rng, file: FileNo, counter: usize) -> Vec<u8> {
    let mut string = good(rng, file, counter);
    match rng.weighted(&SPOILS) {
        Spoil::Shorter => string.truncate(string.len() - rng.between(1, 3)),
        Spoil::Longer => {
            let more = rng.between(1, 3);
            string.extend(rng.bytes(more));
        }
        Spoil::Bit => flip(rng, &mut string, |rng, length| rng.below(length)),
        Spoil::FileOption => string[0] ^= rng.pick(&[0x80, 0x20, 0x10, 0x08, 0x04, 0x40]),
        Spoil::Nibble => set_nibble(rng, &mut string),
        Spoil::Options => flip(rng, &mut string, |_, _| 3),
        Spoil::Cut => string.truncate(rng.below(string.len())),
        Spoil::Noise => {
            let length = rng.below(31);
            string = rng.bytes(length);
        }
    }
    string
}

/// Flips a bit of one byte, where there is that byte.
fn flip(rng: &mut Rng, string: &mut [u8], place: impl Fn(&mut Rng, usize) -> usize) {
    let place = place(rng, string.len());
    if let Some(byte) = string.get_mut(place) {
        *byte ^= 1 << rng.below(8);
    }
}

/// Sets one condition of the rights or the SDM rights to a value that is none.
fn set_nibble(rng: &mut Rng, string: &mut [u8]) {
    let place = rng.pick(&[1, 2, 4, 5]);
    let nibble = rng.between(5, 13) as u8;
    let high = rng.chance(50);
    if let Some(byte) = string.get_mut(place) {
        *byte = match high {
            true => *byte & 0x0f | nibble << 4,
            false => *byte & 0xf0 | nibble,
        };
    }
}
