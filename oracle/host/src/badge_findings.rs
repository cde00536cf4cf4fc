//! Where the reference's no-flag bit is not the badge of document 02's note 7: each by its smallest row, with
//! the bit that its writer of that version sets and the verdict here, under the rule of that version.
use crate::game::{Event, What};
use crate::play_games::{numbered, Made};
use crate::plays::{Theirs, PF, RC};
use crate::{port, reference};
use ms_toollib::GameBoardState;

/// A cell with a mine or without, an event on a column of its row, and the version.
struct Finding {
    what: &'static str,
    mine: bool,
    event: (u8, u16),
    version: u8,
    theirs: bool,
    ours: bool,
}

const FINDINGS: [Finding; 4] = [
    finding("version 3: pf", false, (PF, 0), 3, (false, true)),
    finding("version 3: rc off the board", false, (RC, 1), 3, (true, false)),
    finding("version 4: rc on no mine", false, (RC, 0), 4, (true, false)),
    finding("version 4: pf on a mine", true, (PF, 0), 4, (false, true)),
];

const fn finding(what: &'static str, mine: bool, event: (u8, u16), version: u8, is: (bool, bool)) -> Finding {
    Finding { what, mine, event, version, theirs: is.0, ours: is.1 }
}

/// The bit of a file's second byte that claims the badge.
const CLAIM: u8 = 16;

impl Finding {
    fn made(&self) -> Made {
        let what = What::Mouse { kind: self.event.0, x: self.event.1, y: (self.event.1 > 0) as u16 };
        let events = vec![Event { seconds: 0.0, what }];
        Made { height: 1, width: 1, pixels: 1, mines: vec![self.mine], events }
    }

    /// The bit that the reference writes: its board is stepped through the row, and its writer looks at what
    /// that counted.
    fn theirs(&self) -> bool {
        let made = self.made();
        let mut theirs = Theirs::new(1, 1, &numbered(1, 1, &made.mines), 1);
        made.events.iter().for_each(|event| theirs.step(event));
        let mut video = reference::plain_parse(&made.file(self.version)).expect("a file that is read").data;
        video.game_board_state = GameBoardState::Loss;
        video.minesweeper_board.right = theirs.board.right;
        video.video_action_state_recorder.last_mut().unwrap().key_dynamic_params.rce = theirs.board.rce;
        match self.version {
            3 => video.generate_evf_v3_raw_data(),
            _ => video.generate_evf_v4_raw_data(),
        }
        video.raw_data[1] & CLAIM != 0
    }

    fn ours(&self) -> bool {
        let answer = port::badge(&self.made().file(self.version), port::BY_VERSION, &mut [0], &mut [0]);
        assert!(answer >= 64, "a badge that is refused with {answer}");
        answer % 2 == 1
    }
}

/// Each as listed, else it stops; how many they are.
pub fn show() -> usize {
    for finding in &FINDINGS {
        let (theirs, ours) = (finding.theirs(), finding.ours());
        assert_eq!((theirs, ours), (finding.theirs, finding.ours), "{}", finding.what);
        println!("the reference's bit: {}\there earned: {ours}\t{}", theirs as u8, finding.what);
    }
    FINDINGS.len()
}
