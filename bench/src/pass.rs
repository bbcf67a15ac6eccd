//! A pass: every question on one sheet, asked once, and what came back.

use second::core::Answering;
use second::sheet::Sheet;
use second::suspects::{question_on, PLACES, STEPS};
use std::time::{Duration, Instant};

#[derive(Clone, PartialEq, Eq)]
pub struct Answer {
    code: u8,
    counts: [u64; 3],
    store: Vec<u64>,
    witness: Vec<u8>,
}

impl Answer {
    fn untouched(atoms: u32) -> Answer {
        Answer {
            code: 0,
            counts: [u64::MAX; 3],
            store: vec![u64::MAX; PLACES],
            witness: vec![u8::MAX; atoms as usize],
        }
    }

    fn clear(&mut self) {
        self.code = 0;
        self.counts.fill(u64::MAX);
        self.store.fill(u64::MAX);
        self.witness.fill(u8::MAX);
    }
}

/// Whoever is asked, the answers come into the same buffers.
pub struct Pass<'a> {
    sheet: &'a [u8],
    questions: Vec<u8>,
    answers: Vec<Answer>,
}

impl Pass<'_> {
    pub fn on(bytes: &[u8]) -> Result<Pass<'_>, String> {
        let sheet = Sheet::read(bytes).map_err(|refusal| format!("refused {refusal}"))?;
        let questions = sheet.objectives.iter().copied().map(question_on);
        Ok(Pass {
            sheet: bytes,
            questions: questions.map(|literal| literal as u8).collect(),
            answers: vec![Answer::untouched(sheet.n); sheet.objectives.len()],
        })
    }

    pub fn timed(&mut self, answering: Answering) -> Duration {
        self.answers.iter_mut().for_each(Answer::clear);
        let start = Instant::now();
        for (&question, answer) in self.questions.iter().zip(&mut self.answers) {
            answer.code = answering(
                self.sheet,
                question,
                STEPS,
                &mut answer.store,
                &mut answer.witness,
                &mut answer.counts,
            );
        }
        start.elapsed()
    }

    pub fn answers(&self) -> &[Answer] {
        &self.answers
    }

    pub fn visits(&self) -> u64 {
        self.answers.iter().map(|answer| answer.counts[0]).sum()
    }
}
