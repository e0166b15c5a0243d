//! Random cases of `survey_prepare`.

use jobs::draw::Draw;
use reference::layout::COUNT_WORDS;
use reference::ring::Ring;
use reference::tape::prepare;

pub struct Case {
    pub code: u64,
    pub raw: Vec<u64>,
    pub run: Vec<u64>,
    pub answer_length: usize,
}

impl Case {
    pub fn new(draw: &mut Draw) -> Case {
        let code = match draw.below(20) {
            0 => draw.pick(&[0, 2, 3, 12, 14, 30, 32, 60, 62, 63, 64]),
            1 => draw.pick(&[(1 << 32) + 1, (1 << 32) + 13, 1 << 63, u64::MAX]),
            2..=4 => 1,
            _ => draw.ring().width(),
        };
        let ring = Ring::of_width(code).unwrap_or(Ring::all()[0]);
        let most = match draw.below(20_000) {
            0 => 1_200_000,
            _ => draw.pick(&[1, 2, 4, 30, 30, 30, 600]),
        };
        let length = draw.place(most + 1);
        let raw: Vec<u64> = (0..2 * length + 3).map(|_| draw.raw(ring)).collect();
        let run: Vec<u64> = (0..length).map(|_| draw.word()).collect();
        let used = prepare(code, &raw, &mut run.clone()).unwrap_or(length as u64) as usize;
        let enough = match draw.below(4) {
            0 => used,
            1 => used.saturating_sub(1),
            2 => draw.place(used + 1),
            _ => raw.len(),
        };
        Case {
            code,
            raw: raw[..enough].to_vec(),
            run,
            answer_length: if draw.chance(2) {
                draw.pick(&[0, 1, COUNT_WORDS + 1, 5])
            } else {
                COUNT_WORDS
            },
        }
    }

    pub fn text(&self) -> String {
        format!(
            "code {}, raw {:?}, run of {} words, answer of {} words",
            self.code,
            self.raw,
            self.run.len(),
            self.answer_length
        )
    }
}
