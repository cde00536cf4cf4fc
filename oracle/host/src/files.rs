//! Files of all versions, made from a seed: whole ones with every field at and around its bounds, and damaged ones.
use crate::rng::Rng;

/// A number of so many bytes: small, at a bound, or any.
pub fn number(r: &mut Rng, bytes: u32) -> u64 {
    let top = (1u128 << (8 * bytes)) as u64;
    let any = if bytes == 8 { r.next() } else { r.below(top) };
    match r.below(8) {
        0 => 0,
        1 => 1,
        2 => top.wrapping_sub(1),
        3 => 1 << r.below(8 * bytes as u64),
        4 | 5 => any % 300,
        _ => any,
    }
}

pub fn put(out: &mut Vec<u8>, n: u64, bytes: u32) {
    out.extend(&n.to_be_bytes()[8 - bytes as usize..]);
}

/// Words of texts: plain, of two, three and four bytes a letter, in other encodings, and broken UTF-8.
const WORDS: [&[u8]; 22] = [
    b"",
    b"P",
    b"Player One",
    "赵大锤".as_bytes(),
    "é".as_bytes(),
    "Zoë".as_bytes(),
    "\u{1F4A3}".as_bytes(),
    "\u{7FF}\u{800}\u{FFFF}\u{10000}\u{10FFFF}".as_bytes(),
    b"\xC4\xE3\xBA\xC3",
    b"\xE9t\xE9",
    b"\xFF",
    b"\x81",
    b"\xC0\x80",
    b"\xE0\x80\x80",
    b"\xED\xA0\x80",
    b"\xF4\x90\x80\x80",
    b"\xF0\x8F\xBF\xBF",
    b"\xE5\x85",
    b"\x80",
    b"\xC3\x28",
    b"a\x7Fb",
    b"\xEF\xBF\xBD",
];

pub fn text(r: &mut Rng) -> Vec<u8> {
    match r.below(10) {
        0..=5 => r.pick(&WORDS[..8]).to_vec(),
        6 => r.pick(&WORDS).to_vec(),
        7 => {
            let n = r.below(6);
            r.bytes(n)
        }
        _ => (0..r.below(12)).map(|_| 33 + r.below(94) as u8).collect(),
    }
}

/// A text that can stand before a 00.
fn ended(r: &mut Rng, text: Vec<u8>, out: &mut Vec<u8>) {
    out.extend(text.iter().filter(|b| **b != 0 || r.once_in(20)));
    if !r.once_in(2000) {
        out.push(0);
    }
}

fn software(r: &mut Rng) -> Vec<u8> {
    let names: [&[u8]; 9] =
        ["元3.2.0".as_bytes(), "元".as_bytes(), b"Viennasweeper", b"Viennasweeper 3.1", b"Minesweeper Clone 2007", b"viennasweeper", b"\xE5\x85", b"Viennasweepe", b"Arbite"];
    match r.below(12) {
        0..=8 => r.pick(&names[..5]).to_vec(),
        9 => r.pick(&names).to_vec(),
        10 if r.once_in(4) => b"Arbiter 0.52.3".to_vec(),
        _ => text(r),
    }
}

/// The text of a start or end.
fn moment(r: &mut Rng) -> Vec<u8> {
    let odd: [&[u8]; 12] =
        [b"", b"+", b"+7", b"007", b"18446744073709551615", b"18446744073709551616", b"18446744073709", b"18446744073710", b"18446744073692", b"-1", b" 1", b"1 "];
    match r.below(8) {
        0 => r.pick(&odd).to_vec(),
        1 if r.once_in(6) => text(r),
        2 => r.below(1 << 44).to_string().into_bytes(),
        3 => format!("+{}", r.below(2_000_000_000)).into_bytes(),
        4 => format!("{:024}", r.next()).into_bytes(),
        _ => r.below(2_000_000_000_000_000).to_string().into_bytes(),
    }
}

fn country(r: &mut Rng) -> Vec<u8> {
    let known: [&[u8]; 14] = [b"cn", b"CN", b"Us", b"xX", b"", b"c", b"chn", b"c1", b"1c", b"@[", "é".as_bytes(), b"\xC4\xE3", b"\x81\x30\x81\x30", b"a\xFF"];
    if r.once_in(5) {
        return text(r);
    }
    r.pick(&known).to_vec()
}

/// Height or width: mostly small.
fn side(r: &mut Rng) -> u64 {
    match r.below(24) {
        0 => 0,
        1 => 255,
        2 => r.below(256),
        3 => 8,
        4 => 16,
        5 => 30,
        _ => 1 + r.below(12),
    }
}

fn sides(r: &mut Rng) -> (u64, u64, u64) {
    match r.below(12) {
        0 => *r.pick(&[(8, 8, 10), (16, 16, 40), (16, 30, 99), (8, 8, 11), (16, 16, 10), (30, 16, 99)]),
        _ => (side(r), side(r), number(r, 2)),
    }
}

fn board(r: &mut Rng, cells: u64) -> Vec<u8> {
    let n = cells.div_ceil(8);
    match r.below(4) {
        0 => vec![0; n as usize],
        1 => vec![255; n as usize],
        2 => (0..n).map(|_| r.byte() & r.byte()).collect(),
        _ => r.bytes(n),
    }
}

fn event_count(r: &mut Rng) -> u64 {
    match r.below(10) {
        0 => 0,
        1 => 1,
        2 => r.below(60),
        _ => r.below(12),
    }
}

/// Records of versions 0 to 3; in most files time does not fall.
fn old_records(r: &mut Rng, out: &mut Vec<u8>) {
    let steady = !r.once_in(6);
    let mut ms = if r.once_in(8) { r.below(600) } else { r.below(256) };
    for i in 0..event_count(r) {
        let code = match r.below(40) {
            0 => r.byte().clamp(1, 254),
            _ if i == 0 => *r.pick(&[1, 2, 4, 8]),
            1 => 10 + r.below(3) as u8,
            _ => 1 + r.below(9) as u8,
        };
        out.push(code);
        put(out, ms.min(0xFF_FFFF), 3);
        put(out, number(r, 2), 2);
        put(out, number(r, 2), 2);
        ms = if steady { ms + *r.pick(&[0, 1, 17, 254, 255, 256, 257, 65534, 65535, 65536, 65790, 65791, 131070, 200000]) * (i % 3) } else { number(r, 3) };
    }
}

/// A file of version 0 to 3.
fn old(r: &mut Rng, version: u8) -> Vec<u8> {
    let mut out = vec![version, r.byte()];
    if version == 3 {
        out.push(r.byte());
    }
    let (height, width, mines) = sides(r);
    put(&mut out, height, 1);
    put(&mut out, width, 1);
    put(&mut out, mines, 2);
    out.push(if r.once_in(4) { r.byte() } else { 16 });
    put(&mut out, number(r, 2), 2);
    put(&mut out, number(r, 2), 2);
    put(&mut out, number(r, 3), 3);
    let texts = [software(r), text(r), text(r), text(r), moment(r), moment(r), country(r)];
    texts.into_iter().for_each(|t| ended(r, t, &mut out));
    if version >= 2 {
        let n = r.below(34);
        let device = r.bytes(n);
        ended(r, device, &mut out);
    }
    out.extend(board(r, height * width));
    old_records(r, &mut out);
    if r.once_in(2) {
        out.push(255);
    } else {
        out.push(0);
        out.extend(r.bytes(32));
    }
    out
}

fn new_code(r: &mut Rng) -> u8 {
    match r.below(120) {
        0 => 13 + r.below(68) as u8,
        1 => 84 + r.below(15) as u8,
        2..=9 => 100 + r.below(155) as u8,
        10..=24 => 255,
        25..=39 => *r.pick(&[81, 82, 83, 99]),
        _ => 1 + r.below(12) as u8,
    }
}

fn new_record(r: &mut Rng, out: &mut Vec<u8>) {
    let code = new_code(r);
    out.push(code);
    match code {
        255 => put(out, number(r, 2), 2),
        100..=254 => {}
        81..=99 => out.push(r.byte()),
        _ => {
            out.push(r.byte());
            put(out, number(r, 2), 2);
            put(out, number(r, 2), 2);
        }
    }
}

/// Pauses that come near or pass u32 milliseconds.
fn long_pauses(r: &mut Rng, out: &mut Vec<u8>) {
    (0..65535 + r.below(4)).for_each(|_| out.extend([255, 255, 255]));
    (0..r.below(3)).for_each(|_| new_record(r, out));
}

fn new_records(r: &mut Rng, out: &mut Vec<u8>) {
    out.push(if r.once_in(40) { r.byte() } else { *r.pick(&[1, 2, 4, 8]) });
    out.push(r.byte());
    put(out, number(r, 2), 2);
    put(out, number(r, 2), 2);
    if r.once_in(2000) {
        long_pauses(r, out);
    }
    (0..event_count(r)).for_each(|_| new_record(r, out));
    out.push(0);
}

fn new(r: &mut Rng) -> Vec<u8> {
    let translated = r.once_in(2);
    let mut out = vec![4, r.byte() & 0xF7 | (translated as u8) << 3, r.byte()];
    let (height, width, mines) = sides(r);
    put(&mut out, height, 1);
    put(&mut out, width, 1);
    put(&mut out, mines, 2);
    out.push(r.byte());
    put(&mut out, number(r, 2), 2);
    put(&mut out, number(r, 2), 2);
    put(&mut out, number(r, 4), 4);
    out.extend(*r.pick(&[*b"CN", *b"XX", *b"cn", *b"\xC3\xA9", *b"\0\0", *b"A\x7F"]));
    if r.once_in(60) {
        let n = out.len();
        out[n - 1] = r.byte();
    }
    put(&mut out, number(r, 8), 8);
    put(&mut out, number(r, 8), 8);
    for _ in 0..if translated { 6 } else { 4 } {
        let word = if r.once_in(60) { text(r) } else { r.pick(&WORDS[..8]).to_vec() };
        ended(r, word, &mut out);
    }
    let device = if r.once_in(400) { number(r, 2) } else { r.below(34) };
    put(&mut out, device, 2);
    out.extend(r.bytes(device));
    out.extend(board(r, height * width));
    let metrics = if r.once_in(300) { number(r, 2) } else { r.below(3) * r.below(2) };
    put(&mut out, metrics, 2);
    (0..metrics).for_each(|_| out.extend(b"m\0"));
    new_records(r, &mut out);
    let checksum = if r.once_in(400) { number(r, 2) } else { r.below(33) };
    put(&mut out, checksum, 2);
    out.extend(r.bytes(checksum));
    out
}

/// A whole file, with a tail behind it now and then.
pub fn whole(r: &mut Rng) -> Vec<u8> {
    let version = r.below(5) as u8;
    let mut out = if version == 4 { new(r) } else { old(r, version) };
    if r.once_in(12) {
        let n = r.below(5);
        out.extend(r.bytes(n));
    }
    if r.once_in(300) {
        out[0] = r.byte();
    }
    out
}

/// Cut, with bytes changed, put in or left out.
fn damage(r: &mut Rng, file: &mut Vec<u8>) {
    for _ in 0..1 + r.below(3) {
        if file.is_empty() {
            return;
        }
        let at = r.below(file.len() as u64) as usize;
        match r.below(6) {
            0 => file.truncate(at),
            1 => file.insert(at, *r.pick(&[0, 1, 128, 255])),
            2 => {
                file.remove(at);
            }
            3 => file[at] ^= 1 << r.below(8),
            4 => file[at] = *r.pick(&[0, 1, 127, 128, 254, 255]),
            _ => file[at] = r.byte(),
        }
    }
}

/// A file for the comparison: every third one damaged.
pub fn any(r: &mut Rng) -> Vec<u8> {
    let mut file = whole(r);
    if r.once_in(3) {
        damage(r, &mut file);
    }
    file
}
