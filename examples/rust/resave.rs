//! Writes each replay that is named again as version 4, in memory, and prints a line for each: resave FILE..
//! It prints what examples/c/resave.c prints.

#[link(name = "resave", kind = "static")]
extern "C" {
    fn evf_resave(file: *const u8, length: usize, copy: *mut u8, room: usize, rule: u8) -> usize;
}

/// The bytes of the shortest file of version 4: below it the answer is a refusal's number.
const SHORTEST_COPY: usize = 51;

/// Where a half goes as seconds become milliseconds. A file has whole milliseconds: both rules make the same
/// copy.
const HALVES_AWAY: u8 = 1;
const HALVES_TO_EVEN: u8 = 2;

/// What the library answers for a copy of this length.
fn resave_into(file: &[u8], copy: &mut [u8], rule: u8) -> usize {
    // Safe: each pointer and its length are those of one slice, and the borrows keep the two apart.
    unsafe { evf_resave(file.as_ptr(), file.len(), copy.as_mut_ptr(), copy.len(), rule) }
}

/// The file again, or the number of its refusal. Measures first, then writes into just that room.
fn resave(file: &[u8], rule: u8) -> Result<Vec<u8>, usize> {
    let room = resave_into(file, &mut [], rule);
    if room < SHORTEST_COPY {
        return Err(room);
    }
    let mut copy = vec![0; room];
    assert_eq!(resave_into(file, &mut copy, rule), room, "the same file has the same length");
    Ok(copy)
}

/// The 32-bit FNV-1a hash of some bytes, to compare them by.
fn fnv(bytes: &[u8]) -> u32 {
    bytes.iter().fold(2166136261, |hash: u32, &byte| (hash ^ u32::from(byte)).wrapping_mul(16777619))
}

fn told(file: &[u8]) -> String {
    match resave(file, HALVES_AWAY) {
        Ok(copy) => {
            let is_copy = |again| if again == Ok(copy.clone()) { "the same" } else { "other bytes" };
            let (again, even) = (is_copy(resave(&copy, HALVES_AWAY)), is_copy(resave(file, HALVES_TO_EVEN)));
            let none = resave(file, 3).expect_err("3 is no rule");
            format!("resaved {} bytes, hash {:08x}, a second time {again}", copy.len(), fnv(&copy))
                + &format!(", by rule 2 {even}, by rule 3 refused {none}")
        }
        Err(number) => format!("refused {number}"),
    }
}

fn main() -> std::io::Result<()> {
    for name in std::env::args().skip(1) {
        let file = std::fs::read(&name)?;
        println!("{name}: {} bytes, {}", file.len(), told(&file));
    }
    Ok(())
}
