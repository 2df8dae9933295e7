//! The records of `crates/compare`, answered by the plain-Rust format, cartridges and deck.

use qic24::code::{
    blank_copy, crc, decode_cells, encode, Content, CopyFault, Decoded, BLOCK, GROUPS, MAX_NUMBER, OPENING, PREAMBLE,
};
use qic24::{Cartridge, Deck, Flaw, FlawSheet, IntervalStore, Next, NotLocated, PackedStore, ReadCartridge, Refusal};
use std::fmt::Write as _;
use std::io::{self, Read, Write};

struct Records<'a> {
    input: &'a [u8],
    place: usize,
}

impl<'a> Records<'a> {
    fn byte(&mut self) -> u8 {
        let byte = self.input.get(self.place).copied().unwrap_or(0);
        self.place = (self.place + 1).min(self.input.len());
        byte
    }

    fn number(&mut self, size: u8) -> u32 {
        (0..size).fold(0u32, |v, _| v.wrapping_mul(256).wrapping_add(self.byte() as u32))
    }

    fn bytes(&mut self) -> &'a [u8] {
        let size = self.number(2) as usize;
        let rest = &self.input[self.place..];
        let part = &rest[..size.min(rest.len())];
        self.place += part.len();
        part
    }
}

fn hash_of(bytes: &[u8]) -> u64 {
    bytes.iter().fold(0xCBF2_9CE4_8422_2325, |h, &b| (h ^ b as u64).wrapping_mul(0x0000_0100_0000_01B3))
}

fn copy_line(r: &mut Records) -> String {
    let ones = [PREAMBLE, 3_500, 15_000][r.number(1).min(2) as usize];
    let track = r.byte();
    let number = r.number(4);
    let mark = r.number(1) == 1;
    let mut block = [0u8; BLOCK];
    if !mark {
        block.iter_mut().for_each(|b| *b = r.byte());
    }
    if number == 0 || number > MAX_NUMBER {
        return "no item".into();
    }
    let content = if mark { Content::Mark } else { Content::Block(&block) };
    let mut copy = blank_copy();
    encode(&mut copy, track, number, content);
    let mut cells = vec![1u8; ones - PREAMBLE];
    cells.extend_from_slice(&copy);
    format!("copy {} {:016x}", cells.len(), hash_of(&cells))
}

fn body_line(r: &mut Records) -> String {
    let track = r.byte();
    let mut out: Decoded = [0; GROUPS + 2];
    match decode_cells(r.bytes(), track as usize, &mut out) {
        Ok(s) if s.is_mark => format!("mark {}", s.number),
        Ok(s) => format!("block {} {:016x}", s.number, hash_of(&out[..BLOCK])),
        Err(fault) => fault_line(fault),
    }
}

fn fault_line(fault: CopyFault) -> String {
    match fault {
        CopyFault::TrackEnds => "track ends".into(),
        CopyFault::Group(g) => format!("group {} {}", g.index, g.cells),
        CopyFault::Mixed => "mixed".into(),
        CopyFault::Crc => "check".into(),
        CopyFault::OtherTrack(t) => format!("other track {t}"),
        CopyFault::Control(n) => format!("control {n}"),
        CopyFault::NumberZero => "number zero".into(),
    }
}

fn opening_line(r: &mut Records) -> String {
    let from = r.number(4) as usize;
    let cells = r.bytes();
    let pattern = [1, 1, 1, 1, 1, 1, 1, 1, 1, 0, 0, 1, 1, 1];
    let ends = |p: usize| cells[p - OPENING..p].iter().zip(pattern).all(|(&c, o)| (c != 0) == (o == 1));
    match (from.max(OPENING)..=cells.len()).find(|&p| ends(p)) {
        Some(place) => format!("opening {place}"),
        None => "no opening".into(),
    }
}

fn show(answer: Result<(), Refusal>) -> String {
    match answer {
        Ok(()) => "ok".into(),
        Err(r) => format!("refused {}", r.code()),
    }
}

fn run_on<C: Cartridge>(store: C, r: &mut Records, lines: &mut String) {
    let mut sheet = FlawSheet::new(store);
    writeln!(lines, "store {} {}", sheet.tracks(), sheet.capacity()).unwrap();
    while let Some(b'A' | b'R' | b'L' | b'F') = r.input.get(r.place) {
        match r.byte() {
            b'A' => {
                let track = r.byte() as usize;
                writeln!(lines, "{}", show(sheet.append(track, r.bytes()))).unwrap();
            }
            b'R' => {
                let (track, place) = (r.byte() as usize, r.number(4) as usize);
                let mut cells = vec![0xA5u8; (r.number(2) as usize).min(8_192)];
                let answer = sheet.read(track, place, &mut cells);
                writeln!(lines, "cells {:016x}", hash_of(&cells)).unwrap();
                writeln!(lines, "{}", show(answer)).unwrap();
            }
            b'L' => match sheet.length(r.byte() as usize) {
                Ok(cells) => writeln!(lines, "length {cells}").unwrap(),
                Err(e) => writeln!(lines, "{}", show(Err(e))).unwrap(),
            },
            _ => {
                let (track, place) = (r.byte() as usize, r.number(4) as usize);
                let length = r.number(2) as usize;
                writeln!(lines, "{}", show(sheet.enter(Flaw { track, place, length }))).unwrap();
            }
        }
    }
}

fn store_lines(r: &mut Records, lines: &mut String) {
    let (kind, tracks, capacity) = (r.byte(), r.byte() as usize, r.number(4) as usize);
    let memory = vec![0xA5u8; (r.number(4) as usize).min(10_000_000)];
    if kind == 0 {
        let (store, answer) = PackedStore::new(memory, tracks, capacity);
        writeln!(lines, "{}", show(answer)).unwrap();
        run_on(store, r, lines);
    } else {
        let (store, answer) = IntervalStore::new(memory, tracks, capacity);
        writeln!(lines, "{}", show(answer)).unwrap();
        run_on(store, r, lines);
    }
}

fn refusal_line(refusal: Refusal) -> String {
    match refusal {
        Refusal::CannotWrite { number } => format!("refused 14 {number}"),
        Refusal::NotLocated(NotLocated { expected, track, place, unsound }) => {
            let mut line = format!("refused 17 {expected} {track} {place}");
            if let Some(u) = unsound {
                write!(line, "\nunsound {} {}\n{}", u.track, u.place, fault_line(u.cause)).unwrap();
            }
            line
        }
        _ => format!("refused {}", refusal.code()),
    }
}

fn number_line(name: &str, answer: Result<u32, Refusal>) -> String {
    answer.map_or_else(refusal_line, |number| format!("{name} {number}"))
}

/// The longest block or buffer of a call.
const LONGEST: usize = 600;

fn seeded(seed: u32) -> [u8; LONGEST] {
    let mut x = 0x9E37_79B9_7F4A_7C15u64 ^ seed as u64;
    [0; LONGEST].map(|_: u8| {
        x ^= x << 13;
        x ^= x >> 7;
        x ^= x << 17;
        x as u8
    })
}

fn next_line<C: Cartridge>(deck: &mut Deck<C>, r: &mut Records) -> String {
    let mut buffer = vec![0xA5u8; (r.number(2) as usize).min(LONGEST)];
    let answer = deck.next(&mut buffer);
    let hash = hash_of(&buffer);
    match answer {
        Ok(Next::Block { number }) => format!("next block {number} {hash:016x}"),
        Ok(Next::Mark { number }) => format!("next mark {number} {hash:016x}"),
        Ok(Next::End { passed }) => format!("next end {} {hash:016x}", passed as u8),
        Err(e) => refusal_line(e),
    }
}

fn call_line<C: Cartridge>(deck: &mut Deck<FlawSheet<C>>, kind: u8, r: &mut Records) -> String {
    match kind {
        b'w' => {
            let bytes = seeded(r.number(4));
            let size = (r.number(2) as usize).min(LONGEST);
            number_line("block", deck.write(&bytes[..size]))
        }
        b'm' => number_line("mark", deck.mark()),
        b'n' => next_line(deck, r),
        b'r' => deck.rewind().map_or_else(refusal_line, |()| "rewound".into()),
        _ => {
            let (track, place) = (r.byte() as usize, r.number(4) as usize);
            let length = r.number(4) as usize;
            show(deck.flaw(Flaw { track, place, length }))
        }
    }
}

fn operate<C: Cartridge>(mut store: C, r: &mut Records, lines: &mut String) {
    for _ in 0..r.byte() {
        let (number, most) = (r.number(2), r.number(2) as usize);
        if number > 0 {
            let mut copy = blank_copy();
            encode(&mut copy, 0, number, Content::Mark);
            let _ = store.append(0, &copy[..most.min(copy.len())]);
        }
    }
    let mut deck = Deck::new(FlawSheet::new(store));
    let mut open = None;
    while let Some(b'b' | b'w' | b'm' | b'z' | b'n' | b'r' | b'f') = r.input.get(r.place) {
        let line = match (r.byte(), open.take()) {
            (b'b', was) => match deck.begin() {
                Ok((number, obligation)) => {
                    open = Some(obligation);
                    format!("begin {number}")
                }
                Err(e) => {
                    open = was;
                    refusal_line(e)
                }
            },
            (b'z', Some(obligation)) => number_line("stop", deck.stop(obligation).map_err(|e| e.refusal)),
            (b'z', None) => "nothing to stop".into(),
            (kind, was) => {
                open = was;
                call_line(&mut deck, kind, r)
            }
        };
        writeln!(lines, "{line}").unwrap();
    }
    if let Some(obligation) = open {
        writeln!(lines, "{}", number_line("stop", deck.stop(obligation).map_err(|e| e.refusal))).unwrap();
    }
    let cartridge = deck.cartridge();
    for track in 0..cartridge.tracks() {
        let mut cells = vec![0; cartridge.length(track).unwrap()];
        cartridge.read(track, 0, &mut cells).unwrap();
        writeln!(lines, "track {track} {} {:016x}", cells.len(), hash_of(&cells)).unwrap();
    }
}

fn deck_lines(r: &mut Records, lines: &mut String) {
    let (kind, tracks, capacity) = (r.byte(), r.byte() as usize, r.number(4) as usize);
    let memory = vec![0xA5u8; capacity.min(1_000_000) * tracks];
    if kind == 0 {
        let (store, answer) = PackedStore::new(memory, tracks, capacity);
        writeln!(lines, "{}", show(answer)).unwrap();
        operate(store, r, lines);
    } else {
        let (store, answer) = IntervalStore::new(memory, tracks, capacity);
        writeln!(lines, "{}", show(answer)).unwrap();
        operate(store, r, lines);
    }
}

fn main() -> io::Result<()> {
    let mut input = Vec::new();
    io::stdin().read_to_end(&mut input)?;
    let mut r = Records { input: &input, place: 0 };
    let mut lines = String::new();
    while r.place < input.len() {
        let line = match r.byte() {
            b'C' => format!("crc {:04X}", crc(r.bytes())),
            b'E' => copy_line(&mut r),
            b'D' => body_line(&mut r),
            b'O' => opening_line(&mut r),
            b'S' => {
                store_lines(&mut r, &mut lines);
                continue;
            }
            b'K' => {
                deck_lines(&mut r, &mut lines);
                continue;
            }
            _ => break,
        };
        writeln!(lines, "{line}").unwrap();
    }
    io::stdout().write_all(lines.as_bytes())
}
