//! What a run asks, in which order and how often.

use crate::boundaries::{self, Pair};
use crate::comparer::{Comparer, Fault};
use crate::cuts::spoil_cut;
use crate::drafting;
use crate::drafts::Draft;
use crate::edits::{loosen, reroute, tighten};
use crate::evidence::Evidence;
use crate::explore::explore;
use crate::garbage::{garbage_model, garbage_table, raw};
use crate::histories;
use crate::landings::change_landing;
use crate::models::{self, Size};
use crate::mutate::mutate;
use crate::program_inputs;
use crate::questions::{question, Question};
use crate::random::Random;
use crate::reading::{parse_model, Model};
use crate::sides::Side;
use crate::{spell, worked};

/// How many of each.
#[derive(Clone, Copy)]
pub struct Work {
    /// Random models, each with some forty tables and faulty words.
    pub models: usize,
    /// Random models for the exhaustive player.
    pub played: usize,
    pub questions: usize,
    pub garbage: usize,
    /// Rounds over the directed cases.
    pub boundaries: usize,
    /// Runs of the program, besides the directed ones.
    pub programs: usize,
    /// Boards of slots, besides the directed ones.
    pub boards: histories::Counts,
    /// Models for which tables are drafted.
    pub drafts: drafting::Counts,
}

impl Work {
    /// The usual run.
    pub const USUAL: Work = Work {
        models: 8000,
        played: 3000,
        questions: 40_000,
        garbage: 20_000,
        boundaries: 2,
        programs: 5000,
        boards: histories::Counts {
            histories: 3000,
            handed_in: 30_000,
        },
        drafts: drafting::Counts {
            models: 6000,
            played: 1000,
        },
    };

    /// Enough to catch every wrong judge, board and draft of `wrong`.
    pub const SHORT: Work = Work {
        models: 400,
        played: 0,
        questions: 2000,
        garbage: 500,
        boundaries: 1,
        programs: 300,
        boards: histories::Counts {
            histories: 100,
            handed_in: 1000,
        },
        drafts: drafting::Counts {
            models: 800,
            played: 0,
        },
    };
}

pub struct Run<'a> {
    pub comparer: Comparer<'a>,
    pub evidence: Evidence,
    random: Random,
    /// What boards are drawn with, and drafts.
    random_boards: Random,
    random_drafts: Random,
}

impl<'a> Run<'a> {
    pub fn new(under_test: &'a dyn Side, seed: u64) -> Run<'a> {
        Run {
            comparer: Comparer::new(under_test),
            evidence: Evidence::default(),
            random: Random::new(seed),
            random_boards: Random::new(seed + 1),
            random_drafts: Random::new(seed + 2),
        }
    }

    /// The worked cases and everything drawn; stops at the first fault.
    pub fn all(&mut self, work: &Work) -> Result<(), Fault> {
        self.worked_cases()?;
        self.drawn(work)
    }

    /// Directed and random inputs, each with its answer from all sides.
    pub fn drawn(&mut self, work: &Work) -> Result<(), Fault> {
        for _ in 0..work.boundaries {
            self.boundaries()?;
        }
        for _ in 0..work.models {
            self.model_and_tables()?;
        }
        for _ in 0..work.played {
            self.played_model()?;
        }
        self.long_questions()?;
        for _ in 0..work.questions {
            let question = question(&mut self.random);
            self.question(&question)?;
        }
        for _ in 0..work.garbage {
            self.garbage()?;
        }
        self.program_runs(work.programs)?;
        self.boards(work)?;
        self.drafts(work)
    }

    /// Histories of submissions, and boards that are handed in.
    pub fn boards(&mut self, work: &Work) -> Result<(), Fault> {
        histories::compare(&mut self.comparer, &mut self.random_boards, work.boards)
    }

    /// Drafts of tables, each judged; those of small models are played.
    pub fn drafts(&mut self, work: &Work) -> Result<(), Fault> {
        let random = &mut self.random_drafts;
        drafting::compare(&mut self.comparer, &mut self.evidence, random, work.drafts)
    }

    /// Document 01's own cases, and those of cards 1, 4 and 5.
    fn worked_cases(&mut self) -> Result<(), Fault> {
        worked::check(self.comparer.under_test)?;
        worked::check(self.comparer.plain)?;
        for case in worked::all() {
            self.model(&case.model)?;
            self.played_pair(&case.model, &case.table)?;
        }
        Ok(())
    }

    /// The directed cases, also as bytes for the program.
    fn boundaries(&mut self) -> Result<(), Fault> {
        for (model, table) in boundaries::pairs(&mut self.random) {
            self.model(&model)?;
            self.played_pair(&model, &table)?;
            self.comparer
                .program(&spell::bytes(&[model, table].concat()))?;
        }
        Ok(())
    }

    /// A random model with its explored table, tables near that one, and faults in the words of both.
    fn model_and_tables(&mut self) -> Result<(), Fault> {
        let size = Size::random(&mut self.random);
        let words = models::model(&mut self.random, &size);
        self.model(&words)?;
        let Ok(model) = parse_model(&words) else {
            return self.pair(&words, &[]);
        };
        let draft = explore(&mut self.random, &model);
        self.pair(&words, &draft.words())?;
        for _ in 0..16 {
            let near = near(&mut self.random, &model, &draft);
            self.pair(&words, &near.words())?;
        }
        for _ in 0..14 {
            let mut table = draft.words();
            mutate(&mut self.random, &mut table);
            self.pair(&words, &table)?;
        }
        for _ in 0..10 {
            let mut faulty = words.clone();
            mutate(&mut self.random, &mut faulty);
            self.model(&faulty)?;
            self.pair(&faulty, &draft.words())?;
        }
        Ok(())
    }

    fn model(&mut self, model: &[u32]) -> Result<(), Fault> {
        self.comparer.read_model(model).map(drop)
    }

    /// Judges one pair. A refusal that calls for a witness gets one.
    fn pair(&mut self, model: &[u32], table: &[u32]) -> Result<(), Fault> {
        match self.comparer.judge(model, table)? {
            Ok(_) => Ok(()),
            Err(refusal) => self.evidence.of_refusal(model, table, &refusal),
        }
    }

    fn played_model(&mut self) -> Result<(), Fault> {
        for (model, table) in small_pairs(&mut self.random) {
            self.played_pair(&model, &table)?;
        }
        Ok(())
    }

    /// Judges one pair. A refusal that calls for a witness gets one; what is accepted is played.
    fn played_pair(&mut self, model: &[u32], table: &[u32]) -> Result<(), Fault> {
        match self.comparer.judge(model, table)? {
            Ok(certificate) => self.evidence.of_acceptance(model, table, &certificate),
            Err(refusal) => self.evidence.of_refusal(model, table, &refusal),
        }
    }

    fn long_questions(&mut self) -> Result<(), Fault> {
        let questions = boundaries::long_questions();
        questions
            .iter()
            .try_for_each(|question| self.question(question))
    }

    /// Both questions; the answers are tried out valuation by valuation.
    fn question(&mut self, question: &Question) -> Result<(), Fault> {
        let (clocks, first, second) = (question.clocks, &question.first, &question.second);
        if let Ok(answer) = self.comparer.zone_empty(clocks, first)? {
            self.evidence.of_question(clocks, first, None, answer)?;
        }
        if let Ok(answer) = self.comparer.zone_inside(clocks, first, second)? {
            self.evidence
                .of_question(clocks, first, Some(second), answer)?;
        }
        Ok(())
    }

    fn garbage(&mut self) -> Result<(), Fault> {
        let (model, table) = match self.random.below(3) {
            0 => (raw(&mut self.random), raw(&mut self.random)),
            1 => (garbage_model(&mut self.random), raw(&mut self.random)),
            _ => (
                garbage_model(&mut self.random),
                garbage_table(&mut self.random),
            ),
        };
        self.model(&model)?;
        self.pair(&model, &table)
    }

    fn program_runs(&mut self, count: usize) -> Result<(), Fault> {
        for bytes in program_inputs::directed(&mut self.random) {
            self.comparer.program(&bytes)?;
        }
        for _ in 0..count {
            let bytes = program_inputs::random_input(&mut self.random);
            self.comparer.program(&bytes)?;
        }
        Ok(())
    }
}

/// A table with one to three edits.
fn near(random: &mut Random, model: &Model, draft: &Draft) -> Draft {
    let mut near = draft.clone();
    for _ in 0..random.pick(&[1, 1, 2, 3]) {
        match random.below(5) {
            0 => loosen(random, model, &mut near),
            1 => tighten(random, model, &mut near),
            2 => reroute(random, model, &mut near),
            3 => change_landing(random, model, &mut near),
            _ => spoil_cut(random, model, &mut near),
        }
    }
    near
}

/// A model that is small enough for the player, with its explored table and five near ones; none if
/// it has no start state.
pub fn small_pairs(random: &mut Random) -> Vec<Pair> {
    let size = Size::for_player(random);
    let words = models::model(random, &size);
    let Ok(model) = parse_model(&words) else {
        return Vec::new();
    };
    let draft = explore(random, &model);
    let mut pairs = vec![(words.clone(), draft.words())];
    for _ in 0..5 {
        let near = near(random, &model, &draft);
        pairs.push((words.clone(), near.words()));
    }
    pairs
}
