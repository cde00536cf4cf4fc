//! Where things lie in a file, as far as the mapping of answers needs it: the six texts of versions 0 to 3 that stand before the judgement of software and
//! times, the custom metrics of version 4, and its records counted without wrapping.
use crate::game::Metrics;

/// The texts of a file of version 0 to 3 behind its numbers, in their order, as many of the first seven as end, and the time in ms.
pub struct OldTexts<'a> {
    pub texts: Vec<&'a [u8]>,
    pub time: u64,
}

pub fn old_texts(file: &[u8]) -> Option<OldTexts<'_>> {
    let version = *file.first()?;
    if version > 3 {
        return None;
    }
    let numbers = if version == 3 { 15 } else { 14 };
    let mut rest = file.get(numbers..)?;
    let time = file[numbers - 3..numbers].iter().fold(0, |n, b| n * 256 + *b as u64);
    let mut texts = vec![];
    while texts.len() < 7 {
        let Some(end) = rest.iter().position(|b| *b == 0) else { break };
        texts.push(&rest[..end]);
        rest = &rest[end + 1..];
    }
    Some(OldTexts { texts, time })
}

/// Where the count of the custom metrics of a version 4 file lies, if all before it is there (UTF-8 is not looked at).
pub fn count_at(file: &[u8]) -> Option<usize> {
    let translated = file.get(1)? & 8 != 0;
    let cells = *file.get(3)? as usize * *file.get(4)? as usize;
    let mut at = 34;
    for _ in 0..if translated { 6 } else { 4 } {
        at += file.get(at..)?.iter().position(|b| *b == 0)? + 1;
    }
    at += 2 + u16_at(file, at)? as usize;
    Some(at + cells.div_ceil(8))
}

/// The custom metrics of a version 4 file, if they are all there: the block starts behind the count and ends with the last text's 00.
pub fn metrics(file: &[u8]) -> Option<Metrics> {
    let at = count_at(file)?;
    let (count, start) = (u16_at(file, at)?, at + 2);
    let mut end = start;
    for _ in 0..count {
        end += file.get(end..)?.iter().position(|b| *b == 0)? + 1;
    }
    Some(Metrics { start: start as u64, len: (end - start) as u64, count, block: file[start..end].to_vec() })
}

fn u16_at(file: &[u8], at: usize) -> Option<u16> {
    Some(u16::from_be_bytes([*file.get(at)?, *file.get(at + 1)?]))
}

/// Whether a version 4 file has a whole record after which the pending pauses or an event's milliseconds pass a u32, before anything else is wrong in its records.
pub fn passes_u32(file: &[u8]) -> bool {
    if file.first() != Some(&4) {
        return false;
    }
    records_pass(file).unwrap_or(false)
}

fn records_pass(file: &[u8]) -> Option<bool> {
    let metrics = metrics(file)?;
    let mut at = (metrics.start + metrics.len) as usize;
    if ![1, 2, 4, 8].contains(file.get(at)?) {
        return None;
    }
    let mut ms = *file.get(at + 1)? as u64;
    file.get(at + 5)?;
    at += 6;
    let mut pending = 0;
    loop {
        let length = match *file.get(at)? {
            0 => return Some(false),
            1..=12 => 6,
            81 | 82 | 83 | 99 => 2,
            100..=254 => 1,
            255 => 3,
            _ => return None,
        };
        file.get(at + length - 1)?;
        match length {
            3 => pending += u16_at(file, at + 1)? as u64,
            1 => {}
            _ => {
                ms += pending + file[at + 1] as u64;
                pending = 0;
            }
        }
        if pending > u32::MAX as u64 || ms > u32::MAX as u64 {
            return Some(true);
        }
        at += length;
    }
}
