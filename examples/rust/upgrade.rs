//! Checks and upgrades each replay that is named, in memory, and prints a line for each: upgrade FILE..
//! It prints what examples/c/upgrade.c prints.

#[link(name = "evf_video", kind = "static")]
extern "C" {
    fn evf_check(file: *const u8, length: usize) -> u8;
}

#[link(name = "upgrade", kind = "static")]
extern "C" {
    fn evf_upgrade(file: *const u8, length: usize, copy: *mut u8, room: usize, rule: u8) -> usize;
}

/// The bytes of the shortest file of version 4: below it the answer is a refusal's number.
const SHORTEST_COPY: usize = 51;

/// Where a half goes as seconds become milliseconds. A file has whole milliseconds: both rules make the same
/// copy.
const HALVES_AWAY: u8 = 1;
const HALVES_TO_EVEN: u8 = 2;

/// Whether a file can be read, or the number that says why not.
fn check(file: &[u8]) -> u8 {
    // Safe: the pointer and the length are those of one slice, which is only read.
    unsafe { evf_check(file.as_ptr(), file.len()) }
}

/// What the library answers for a copy of this length.
fn upgrade_into(file: &[u8], copy: &mut [u8], rule: u8) -> usize {
    // Safe: each pointer and its length are those of one slice, and the borrows keep the two apart.
    unsafe { evf_upgrade(file.as_ptr(), file.len(), copy.as_mut_ptr(), copy.len(), rule) }
}

/// The file as version 4, or the number of its refusal. Measures first, then upgrades into just that room.
fn upgrade(file: &[u8], rule: u8) -> Result<Vec<u8>, usize> {
    let room = upgrade_into(file, &mut [], rule);
    if room < SHORTEST_COPY {
        return Err(room);
    }
    let mut copy = vec![0; room];
    let length = upgrade_into(file, &mut copy, rule);
    assert_eq!(length, room, "the same file has the same length");
    Ok(copy)
}

/// The 32-bit FNV-1a hash of some bytes, to compare them by.
fn fnv(bytes: &[u8]) -> u32 {
    bytes.iter().fold(2166136261, |hash: u32, &byte| (hash ^ u32::from(byte)).wrapping_mul(16777619))
}

fn told(file: &[u8]) -> String {
    match upgrade(file, HALVES_AWAY) {
        Ok(copy) => {
            let again = upgrade(&copy, HALVES_AWAY).expect_err("a copy is of version 4");
            let even = upgrade(file, HALVES_TO_EVEN);
            let same = if even.as_ref() == Ok(&copy) { "the same" } else { "other bytes" };
            let none = upgrade(file, 3).expect_err("3 is no rule");
            format!("upgraded {} bytes, hash {:08x}, check {}, a second upgrade {again}", copy.len(), fnv(&copy), check(&copy))
                + &format!(", by rule 2 {same}, by rule 3 refused {none}")
        }
        Err(number) => format!("refused {number}"),
    }
}

fn main() -> std::io::Result<()> {
    for name in std::env::args().skip(1) {
        let file = std::fs::read(&name)?;
        println!("{name}: {} bytes, check {}, {}", file.len(), check(&file), told(&file));
    }
    Ok(())
}
