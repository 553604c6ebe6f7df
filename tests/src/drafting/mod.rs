//! Drafts of tables (document 02, card 5): models of all kinds, numbers of rounds and of lent words. All
//! sides are compared word for word, what they agree on is held against what the card says of every
//! draft, and each draft is judged.

mod draw;
mod law;
mod room;
mod tally;

pub use law::certificate;
pub use room::{drafted, Drafted, LONGEST};
pub use tally::DraftTally;

use crate::comparer::{written, Comparer, Fault, Same};
use crate::evidence::Evidence;
use crate::random::Random;
use crate::reading::{Certificate, Counts as ModelCounts, Refusal};
use crate::sides::Side;

/// Who is asked: all sides, which must agree, or one alone.
pub trait Asks {
    /// The table, or a refusal. All words that were lent, but for a table's, must be as they were.
    fn draft(&mut self, model: &[u32], rounds: u64, words: usize) -> Same<Vec<u32>>;
    fn judge(&mut self, model: &[u32], table: &[u32]) -> Same<Certificate>;
    fn read_model(&mut self, model: &[u32]) -> Same<ModelCounts>;
}

/// One side, without any comparison.
struct Alone<'a>(&'a dyn Side);

impl Asks for Alone<'_> {
    fn draft(&mut self, model: &[u32], rounds: u64, words: usize) -> Same<Vec<u32>> {
        drafted(self.0, model, rounds, words).table().map_err(Fault)
    }

    fn judge(&mut self, model: &[u32], table: &[u32]) -> Same<Certificate> {
        Ok(self.0.judge(model, table))
    }

    fn read_model(&mut self, model: &[u32]) -> Same<ModelCounts> {
        Ok(self.0.read_model(model))
    }
}

/// How many models are drawn.
#[derive(Clone, Copy)]
pub struct Counts {
    pub models: usize,
    /// Small ones, whose drafts are played.
    pub played: usize,
}

/// Compares drafts of what is drawn.
pub fn compare(
    comparer: &mut Comparer,
    evidence: &mut Evidence,
    random: &mut Random,
    counts: Counts,
) -> Result<(), Fault> {
    let drawn = (0..counts.models).map(|_| Question::drawn(random, draw::model));
    for question in directed().chain(drawn) {
        let drafts = question.hold(comparer)?;
        question.count(&mut comparer.tally.drafts, &drafts);
    }
    for _ in 0..counts.played {
        let question = Question::drawn(random, draw::small_model);
        let before = evidence.played;
        let drafts = question.hold(comparer)?.unwrap_or_default();
        comparer.tally.drafts.small += usize::from(!drafts.is_empty());
        for (_, table) in drafts {
            evidence.of_acceptance(&question.model, &table, &law::certificate(&table))?;
        }
        comparer.tally.drafts.played += evidence.played - before;
    }
    Ok(())
}

/// Holds one side against what the card says, without any comparison: the directed models, then at most
/// so many others. How many of them passed before one was objected to, if one was.
pub fn objected(side: &dyn Side, random: &mut Random, most: usize) -> Option<usize> {
    let drawn = (0..most).map(|_| Question::drawn(random, draw::model));
    let mut questions = directed().chain(drawn);
    questions.position(|question| question.hold(&mut Alone(side)).is_err())
}

/// Models at the card's limits, each with the rounds at which something changes.
fn directed() -> impl Iterator<Item = Question> {
    let asked = |model| Question {
        model,
        rounds: draw::ROUNDS.to_vec(),
        seed: 0,
    };
    draw::directed().into_iter().map(asked)
}

/// A model, and what is asked of it.
struct Question {
    model: Vec<u32>,
    /// The smallest number first.
    rounds: Vec<u64>,
    /// What lent words are drawn with, once a length is known.
    seed: u64,
}

/// Drafts of one model by their rounds, or the refusal of all.
type Drafts = Result<Vec<(u64, Vec<u32>)>, Refusal>;

impl Question {
    fn drawn(random: &mut Random, model: fn(&mut Random) -> Vec<u32>) -> Question {
        Question {
            model: model(random),
            rounds: draw::rounds(random),
            seed: random.draw(),
        }
    }

    /// Asks everything and holds it against the card.
    fn hold(&self, asks: &mut dyn Asks) -> Result<Drafts, Fault> {
        let mut drafts: Drafts = Ok(Vec::new());
        for (number, &rounds) in self.rounds.iter().enumerate() {
            let drafted = asks.draft(&self.model, rounds, LONGEST + 1)?;
            let first = number == 0;
            drafts = match (drafts, drafted) {
                (Ok(mut before), Ok(table)) => {
                    self.draft(asks, rounds, &table)?;
                    before.push((rounds, table));
                    Ok(before)
                }
                (before, Err(refusal)) if first || before == Err(refusal) => Err(refusal),
                _ => return Err(self.fault("refused after some rounds only")),
            };
        }
        match &drafts {
            Ok(drafts) => self.drafts(asks, drafts)?,
            Err(refusal) => self.refused(asks, *refusal)?,
        }
        Ok(drafts)
    }

    /// A draft by itself: its words, and what it is judged.
    fn draft(&self, asks: &mut dyn Asks, rounds: u64, table: &[u32]) -> Result<(), Fault> {
        let told = |what: String| self.fault(&format!("{what}, {rounds} rounds"));
        law::words(&self.model, rounds, table).map_err(told)?;
        let judged = asks.judge(&self.model, table)?;
        match judged == Ok(law::certificate(table)) {
            true => Ok(()),
            false => Err(told(format!("a draft is judged {judged:?}"))),
        }
    }

    /// Drafts beside one another, and into fewer and more words.
    fn drafts(&self, asks: &mut dyn Asks, drafts: &[(u64, Vec<u32>)]) -> Result<(), Fault> {
        for pair in drafts.windows(2) {
            let [fewer, more] = [&pair[0], &pair[1]].map(|(rounds, table)| (*rounds, &table[..]));
            law::more_rounds(fewer, more).map_err(|what| self.fault(&what))?;
        }
        let (rounds, table) = &drafts[0];
        for words in self.lent(table.len()) {
            let due = match words < table.len() {
                true => Err(Refusal {
                    number: 60,
                    place: 0,
                }),
                false => Ok(table.clone()),
            };
            if asks.draft(&self.model, *rounds, words)? != due {
                return Err(self.fault(&format!("{words} words lent for {}", table.len())));
            }
        }
        Ok(())
    }

    fn lent(&self, length: usize) -> [usize; 4] {
        draw::lent(&mut Random::new(self.seed), length)
    }

    /// The model's own refusal comes first; 58 and 59 have place 0; however few words are lent.
    fn refused(&self, asks: &mut dyn Asks, refusal: Refusal) -> Result<(), Fault> {
        let of_model = asks.read_model(&self.model)?.err();
        let of_draft = matches!(refusal.number, 58 | 59) && refusal.place == 0;
        if of_model.map_or(!of_draft, |of_model| of_model != refusal) {
            return Err(self.fault(&format!("refused with {refusal:?}")));
        }
        for words in self.lent(40) {
            if asks.draft(&self.model, self.rounds[0], words)? != Err(refusal) {
                return Err(self.fault(&format!("not refused with {words} words lent")));
            }
        }
        Ok(())
    }

    fn fault(&self, what: &str) -> Fault {
        Fault(format!("{what}\n{}", written(&[("model", &self.model)])))
    }

    /// Counts what it came to.
    fn count(&self, tally: &mut DraftTally, drafts: &Drafts) {
        let drafts = match drafts {
            Ok(drafts) => drafts,
            Err(refusal) => return tally.refused(&self.model, refusal),
        };
        let length = drafts[0].1.len();
        for words in self.lent(length) {
            tally.lent(words, length);
        }
        for pair in drafts.windows(2) {
            let [fewer, more] = [&pair[0].1, &pair[1].1].map(|table| law::certificate(table).b);
            tally.fell += usize::from(more < fewer);
        }
        if let Some((rounds, table)) = drafts.last() {
            tally.drafted(&self.model, *rounds, table);
        }
    }
}
