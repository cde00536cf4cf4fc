//! Document 01's refusals of writing, 14 to 22, and 25 of note 3 of document 02, for a game whose texts lie in lent bytes. The first in checking order that holds is the answer; where none does, the
//! answer is the reference's.
use crate::game::*;
use ms_toollib::miscellaneous::s_to_ms;

/// A game as it is lent to a writer: places of its texts and of its custom metrics, and bytes behind them. The game's own texts are what lies there, empty where a place passes the bytes.
#[derive(Clone)]
pub struct Lent {
    pub game: Game,
    pub bytes: Vec<u8>,
    pub places: [(u64, u64); 9],
}

impl Lent {
    pub fn place_passes(&self) -> bool {
        let passes = |start: u64, len: u64| start as u128 + len as u128 > self.bytes.len() as u128;
        let metrics = &self.game.metrics;
        passes(metrics.start, metrics.len) || self.places.iter().any(|(start, len)| passes(*start, *len))
    }
}

fn is_text(bytes: &[u8]) -> bool {
    std::str::from_utf8(bytes).is_ok() && !bytes.contains(&0)
}

fn texts_fail(g: &Game, version: u8) -> bool {
    let mut written = vec![SOFTWARE, PLAYER, RACE, UNIQUE_ID];
    if version == 3 {
        written.push(COUNTRY);
    } else if g.flags[TRANSLATED] {
        written.extend([TRANSLATED_SOFTWARE, ORIGINAL_ENCODING]);
    }
    written.iter().any(|i| !is_text(&g.texts[*i])) || version == 3 && g.texts[DEVICE_ID].contains(&0)
}

fn lengths_fail(g: &Game, version: u8) -> bool {
    let checksum = g.texts[CHECKSUM].len();
    if version == 3 {
        return checksum != 0 && checksum != 32;
    }
    g.texts[DEVICE_ID].len() > 65535 || checksum > 65535
}

/// Whether the block is not just so many texts of UTF-8, each ended by 00.
fn metrics_fail(g: &Game) -> bool {
    let mut rest = &g.metrics.block[..];
    for _ in 0..g.metrics.count {
        match rest.iter().position(|b| *b == 0) {
            Some(end) if std::str::from_utf8(&rest[..end]).is_ok() => rest = &rest[end + 1..],
            _ => return true,
        }
    }
    !rest.is_empty()
}

fn first_fails(g: &Game) -> bool {
    match g.events.first() {
        Some(Event { seconds, what: What::Mouse { kind, .. } }) => ![1, 2, 4, 8].contains(kind) || s_to_ms(*seconds) > 255,
        _ => true,
    }
}

fn row_fails(g: &Game, version: u8) -> bool {
    let mut last = 0;
    for event in &g.events {
        if let What::Mouse { kind, .. } = event.what {
            let ms = s_to_ms(event.seconds);
            if version == 3 && ms > 16777215 || version == 4 && (kind == 0 || ms < last) {
                return true;
            }
            last = ms;
        }
    }
    false
}

/// 15 to 20, 25, 21 and 22.
pub fn refusal_of_game(g: &Game, version: u8) -> Option<u8> {
    let four = version == 4;
    let passes = |n: u64| n as u128 * g.pixels as u128 > 32767;
    let conditions: [(u8, &dyn Fn() -> bool); 9] = [
        (15, &|| g.height == 0 || g.height > 255 || g.width > 255),
        (16, &|| four && (passes(g.height) || passes(g.width))),
        (17, &|| (g.cells.len() as u128) < g.height as u128 * g.width as u128),
        (18, &|| g.mines > 65535 || g.bbbv > 65535 || !four && g.time > 16777215),
        (19, &|| texts_fail(g, version)),
        (20, &|| lengths_fail(g, version)),
        (25, &|| four && metrics_fail(g)),
        (21, &|| four && first_fails(g)),
        (22, &|| row_fails(g, version)),
    ];
    conditions.iter().find(|(_, holds)| holds()).map(|(n, _)| *n)
}

pub fn refusal(lent: &Lent, version: u8) -> Option<u8> {
    if lent.place_passes() {
        return Some(14);
    }
    refusal_of_game(&lent.game, version)
}
