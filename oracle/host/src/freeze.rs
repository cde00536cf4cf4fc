//! A sample of the reference's answers, for the repository to replay without it: so many cases of each sort, version and number.
use crate::answers::{self, Case, Room};
use crate::metrics::Metered;
use crate::rng::Rng;
use crate::{compare, files, findings, games, port};
use std::collections::BTreeMap;

/// Longer cases are left out, but for the first of a class.
const LONG: usize = 700;

/// How many accepted cases are kept for each refused one.
const ACCEPTED: usize = 5;

fn keep(kept: &mut BTreeMap<(u8, u8, u8), Vec<Case>>, case: Case, refused: usize) {
    let most = if case.class.2 == 0 { refused.saturating_mul(ACCEPTED) } else { refused };
    let class = kept.entry(case.class).or_default();
    if class.len() < most && (class.is_empty() || case.input.len() < LONG) {
        class.push(case);
    }
}

fn room(r: &mut Rng) -> Room {
    Room { enough: true, bytes: r.below(6) as i64 - 2 }
}

/// Note 3's: files and games with custom metrics, a tenth as many of each class.
fn with_metrics(seed: u64, most: usize, tries: u64) -> Vec<Case> {
    let (mut r, mut metered, mut kept) = (Rng::new(seed), Metered::new(seed), BTreeMap::new());
    for _ in 0..tries {
        let file = metered.file(files::any(&mut r));
        if file.first() == Some(&4) {
            keep(&mut kept, answers::reading(&file, 65025, 2000), most);
        }
        keep(&mut kept, answers::resaving(&file, &room(&mut r)), most);
        let mut lent = games::any(&mut r);
        metered.game(&mut lent);
        [3, 4].iter().for_each(|version| keep(&mut kept, answers::writing(&lent, *version, &room(&mut r)), most));
    }
    kept.into_values().flatten().collect()
}

/// Writes a list of cases for `tools/join_cases.py`: the program's input and the answers.
pub fn freeze(seed: u64, most: usize, tries: u64, folder: &str) {
    let mut r = Rng::new(seed);
    let mut kept = BTreeMap::new();
    for finding in findings::of_the_base() {
        findings::cases(&finding).into_iter().for_each(|case| keep(&mut kept, case, usize::MAX));
    }
    for file in compare::small_files(seed, 1) {
        (0..file.len()).for_each(|n| keep(&mut kept, answers::reading(&file[..n], 65025, 2000), usize::MAX));
    }
    for _ in 0..tries {
        let file = files::any(&mut r);
        let (cells, entries) = if r.once_in(4) { (r.below(60) as u16, r.below(10) as u16) } else { (65025, 2000) };
        keep(&mut kept, answers::reading(&file, cells, entries), most);
        keep(&mut kept, answers::upgrading(&file, &room(&mut r)), most);
        let lent = games::any(&mut r);
        [3, 4].iter().for_each(|version| keep(&mut kept, answers::writing(&lent, *version, &room(&mut r)), most));
    }
    for (class, cases) in &kept {
        println!("tag {} version {} number {}: {}", class.0, class.1, class.2, cases.len());
    }
    // note 1's come behind, and then note 3's, so that what was frozen before keeps its place
    let of_note_1: Vec<Case> = findings::of_note_1().iter().flat_map(findings::cases).collect();
    let of_note_3 = with_metrics(seed, most / 10, tries);
    let cases: Vec<Case> = kept.into_values().flatten().chain(of_note_1).chain(of_note_3).collect();
    std::fs::create_dir_all(folder).unwrap();
    std::fs::write(format!("{folder}/stdin"), port::blocks(&cases)).unwrap();
    std::fs::write(format!("{folder}/stdout"), port::expected(&cases)).unwrap();
    println!("frozen {} cases", cases.len());
}
