//! Holds answers of judging, and of the zone questions, against valuations tried one by one.

use std::collections::BTreeMap;

use crate::comparer::{written, Fault};
use crate::player::{grid_of, node_claims, object, start_claim, Claim, Miss, Player};
use crate::points::{all_hold, largest, largest_of_model, Grid};
use crate::reading::words::bound;
use crate::reading::{parse_model, parse_table, Bound, Certificate, Model, Node, Refusal, Table};
use crate::sums::{sums, Sum};
use crate::witness::{all_quests, quest_of, Quest, Witness};

/// How many valuations, or valuations and delays, may be tried for one question at one scale. Where
/// a witness must be there the search ends with it, mostly soon, so that it may be wider.
const MOST_TRIES: u64 = 500_000;
const MOST_FOR_WITNESS: u64 = 20_000_000;
/// How many counts and delays the player may go through at one scale.
const MOST_MOVES: u64 = 1_000_000;
const STEPS: usize = 4;
const SCALES: std::ops::RangeInclusive<i64> = 1..=6;

/// What was looked at, and what was left out as too large.
#[derive(Default)]
pub struct Evidence {
    /// How the player counts landings outside.
    pub miss: Miss,
    /// Accepted tables at all of the scales 1 to 6; the others were too large at some scale.
    pub played: usize,
    pub played_in_part: usize,
    /// Tables and scales that were played.
    pub plays: usize,
    /// Claims of nodes and starts that the plays upheld.
    pub claims: usize,
    /// Of the tables played at all scales, those with a cut; of the claims, those of cut nodes.
    pub played_with_cut: usize,
    pub claims_of_cut: usize,
    /// Of the tables played at all scales, those with a landing outside at some of them; of these,
    /// those without one at scale 1, and those that certify a fraction below 1.
    pub played_with_miss: usize,
    pub missed_between_ticks: usize,
    pub missed_below_1: usize,
    /// Played tables for which a value of the start node lower by one is refuted; of these, those with
    /// a landing outside and a fraction below 1.
    pub tight: usize,
    pub tight_with_miss: usize,
    /// Rows, parts and starts of accepted tables in which no witness was found, as it should be.
    pub fruitless: usize,
    pub fruitless_left_out: usize,
    /// Sums of accepted tables that fit with V for an edge that was seen to land outside.
    pub sums_with_miss: usize,
    /// Refusals 19 whose sum is too large without a landing outside.
    pub too_large_by_values: usize,
    /// By refusal: witnesses found.
    pub witnesses: BTreeMap<u32, usize>,
    pub witnesses_left_out: BTreeMap<u32, usize>,
    /// By scale: witnesses first found there.
    pub first_scales: BTreeMap<i64, usize>,
    /// Zone questions answered by enumeration.
    pub zones: usize,
    pub zones_left_out: usize,
}

impl Evidence {
    /// A refusal 16, 18, 21 or 53 must have a witness, a refusal 19 a sum that is too large.
    pub fn of_refusal(
        &mut self,
        model: &[u32],
        table: &[u32],
        refusal: &Refusal,
    ) -> Result<(), Fault> {
        if ![16, 18, 19, 21, 53].contains(&refusal.number) {
            return Ok(());
        }
        let fault = |what: String| {
            let input = written(&[("model", model), ("table", table)]);
            Fault(format!("{refusal:?}: {what}\n{input}"))
        };
        let Some((model, table)) = parsed(model, table) else {
            return Err(fault("the words do not parse".to_string()));
        };
        let shown = match refusal.number {
            19 => self.too_large(&model, &table, refusal.place),
            _ => self.witnessed(&model, &table, refusal),
        };
        shown.map_err(fault)
    }

    fn witnessed(&mut self, model: &Model, table: &Table, refusal: &Refusal) -> Result<(), String> {
        let Some(quest) = quest_of(model, table, refusal) else {
            return Err("no row or part lies there".to_string());
        };
        match first_witness(model, &quest)? {
            Found::None => return Err("no witness at scales 1 to 6".to_string()),
            found => self.count(refusal.number, &found),
        }
        Ok(())
    }

    /// A sum may be too large by the successors' values alone. Otherwise it must be too large with V
    /// for edges that land outside, which is shown for one after the other until it is.
    fn too_large(&mut self, model: &Model, table: &Table, place: usize) -> Result<(), String> {
        let mut sums = sums(model, table).into_iter();
        let Some(sum) = sums.find(|sum| sum.place == place) else {
            return Err("no row with successors begins there".to_string());
        };
        if !sum.fits(&[]) {
            self.too_large_by_values += 1;
            return Ok(());
        }
        let (mut missed, mut left_out) = (Vec::new(), false);
        for (edge, quest) in sum.quests() {
            let found = first_witness(model, &quest)?;
            left_out |= matches!(found, Found::TooLarge);
            if let Found::Witness(_) = found {
                missed.push(edge);
            }
            if !sum.fits(&missed) {
                self.count(19, &found);
                return Ok(());
            }
        }
        if !left_out {
            return Err(format!("the sum fits with landings outside of {missed:?}"));
        }
        self.count(19, &Found::TooLarge);
        Ok(())
    }

    /// Counts a witness, or that one was left out.
    fn count(&mut self, number: u32, found: &Found) {
        match found {
            Found::Witness(witness) => {
                *self.witnesses.entry(number).or_default() += 1;
                *self.first_scales.entry(witness.scale).or_default() += 1;
            }
            Found::TooLarge => *self.witnesses_left_out.entry(number).or_default() += 1,
            Found::None => {}
        }
    }

    /// An accepted table must stand against every scheduler, and no row, part or start of it may have a
    /// witness.
    pub fn of_acceptance(
        &mut self,
        model: &[u32],
        table: &[u32],
        certificate: &Certificate,
    ) -> Result<(), Fault> {
        let with_input = |fault| {
            let input = written(&[("model", model), ("table", table)]);
            Fault(format!("{fault}\n{input}"))
        };
        let Some((model, table)) = parsed(model, table) else {
            let fault = Fault("accepted, but the words do not parse".to_string());
            return Err(with_input(fault));
        };
        self.no_witness(&model, &table).map_err(with_input)?;
        self.play(&model, &table, certificate).map_err(with_input)
    }

    /// Plays at every scale that is not too large for the table.
    fn play(
        &mut self,
        model: &Model,
        table: &Table,
        certificate: &Certificate,
    ) -> Result<(), Fault> {
        let mut claims = node_claims(model, table);
        claims.push(start_claim(model, certificate));
        let playable = |scale: &i64| small_enough(model, &claims, *scale);
        let scales: Vec<i64> = SCALES.filter(playable).collect();
        let mut tight = false;
        let mut missed = Vec::new();
        for &scale in &scales {
            let mut player = Player::new(model, scale, STEPS, self.miss);
            for claim in &claims {
                if let Some(objection) = object(&mut player, claim, certificate.whole, STEPS) {
                    return Err(Fault(format!("{certificate:?} meets {objection:?}")));
                }
            }
            tight |= refutes_lower(&mut player, model, certificate);
            missed.push(player.misses > 0);
        }
        let cuts = table.nodes.iter().filter_map(Node::cut).count();
        self.claims += claims.len() * scales.len();
        self.claims_of_cut += cuts * scales.len();
        self.plays += scales.len();
        self.tight += usize::from(tight);
        if scales.len() == SCALES.count() {
            self.played += 1;
            self.played_with_cut += usize::from(cuts > 0);
            let some = missed.contains(&true);
            self.played_with_miss += usize::from(some);
            self.missed_between_ticks += usize::from(some && !missed[0]);
            let below_1 = some && certificate.b < certificate.whole;
            self.missed_below_1 += usize::from(below_1);
            self.tight_with_miss += usize::from(below_1 && tight);
        } else {
            self.played_in_part += 1;
        }
        Ok(())
    }

    fn no_witness(&mut self, model: &Model, table: &Table) -> Result<(), Fault> {
        for quest in all_quests(model, table) {
            match self.tried(model, &quest) {
                Found::Witness(witness) => {
                    return Err(Fault(format!("accepted against {witness:?}")));
                }
                Found::TooLarge => {}
                Found::None => self.fruitless += 1,
            }
        }
        let mut sums = sums(model, table).into_iter();
        sums.try_for_each(|sum| self.small_enough_sum(model, &sum))
    }

    /// The sum must fit with V for every edge that is seen to land outside.
    fn small_enough_sum(&mut self, model: &Model, sum: &Sum) -> Result<(), Fault> {
        let mut missed = Vec::new();
        for (edge, quest) in sum.quests() {
            if let Found::Witness(_) = self.tried(model, &quest) {
                missed.push(edge);
            }
        }
        if !sum.fits(&missed) {
            let place = sum.place;
            return Err(Fault(format!(
                "accepted, but at {place} the sum is too large with landings outside of {missed:?}"
            )));
        }
        self.sums_with_miss += usize::from(!missed.is_empty());
        Ok(())
    }

    /// Tries everything at a scale that is enough, unless that is too much.
    fn tried(&mut self, model: &Model, quest: &Quest) -> Found {
        let scale = quest.enough(model);
        if quest.cost(model, scale) > MOST_TRIES {
            self.fruitless_left_out += 1;
            return Found::TooLarge;
        }
        match quest.search(model, scale) {
            Some(witness) => Found::Witness(witness),
            None => Found::None,
        }
    }

    /// Whether a zone is empty, or inside the second if one is given, by enumeration.
    pub fn of_question(
        &mut self,
        clocks: u32,
        first: &[u32],
        second: Option<&[u32]>,
        answer: bool,
    ) -> Result<(), Fault> {
        let count = clocks as usize;
        let zone = bounds_of(count, first);
        let other = second.map(|words| bounds_of(count, words));
        let constant = largest(zone.iter().chain(other.iter().flatten()));
        let grid = Grid::new(count, count as i64 + 1, constant);
        if grid.size(&zone) > MOST_TRIES / 4 {
            self.zones_left_out += 1;
            return Ok(());
        }
        let found = grid.find(&zone, &mut |clocks| {
            other
                .as_ref()
                .is_none_or(|other| !all_hold(other, grid.scale, clocks))
        });
        if found.is_none() != answer {
            let input = written(&[
                ("clocks", &[clocks]),
                ("first", first),
                ("second", second.unwrap_or(&[])),
            ]);
            return Err(Fault(format!(
                "answered {answer}, but found {found:?}\n{input}"
            )));
        }
        self.zones += 1;
        Ok(())
    }
}

fn parsed(model: &[u32], table: &[u32]) -> Option<(Model, Table)> {
    let model = parse_model(model).ok()?;
    let table = parse_table(&model, table).ok()?;
    Some((model, table))
}

fn bounds_of(clocks: usize, words: &[u32]) -> Vec<Bound> {
    let read = |&word: &u32| bound(word, clocks);
    words.iter().filter_map(read).collect()
}

/// What a search came to.
enum Found {
    Witness(Witness),
    None,
    /// There was too much to try.
    TooLarge,
}

/// A witness at the lowest scale that has one; checked once more.
fn first_witness(model: &Model, quest: &Quest) -> Result<Found, String> {
    if quest.cost(model, quest.enough(model)) > MOST_FOR_WITNESS {
        return Ok(Found::TooLarge);
    }
    let mut scales = SCALES;
    match scales.find_map(|scale| quest.search(model, scale)) {
        Some(witness) if quest.recheck(model, &witness) => Ok(Found::Witness(witness)),
        Some(witness) => Err(format!("{witness:?} is none")),
        None => Ok(Found::None),
    }
}

fn small_enough(model: &Model, claims: &[Claim], scale: i64) -> bool {
    let readings = (scale * largest_of_model(model) + 2) as u64;
    let valuations = readings.saturating_pow(model.clocks as u32);
    let counts = valuations.saturating_mul(model.locations.len() as u64 * (STEPS as u64 + 1));
    let grids = claims
        .iter()
        .map(|claim| (grid_of(model, claim, scale), claim));
    let states: u64 = grids
        .map(|(grid, claim)| grid.size(&claim.bounds))
        .fold(0, u64::saturating_add);
    counts.saturating_mul(readings) <= MOST_MOVES && states <= MOST_TRIES
}

/// Whether the player objects to the start's value lowered by one.
fn refutes_lower(player: &mut Player, model: &Model, certificate: &Certificate) -> bool {
    if certificate.b == 0 {
        return false;
    }
    let lower = Certificate {
        b: certificate.b - 1,
        ..*certificate
    };
    object(player, &start_claim(model, &lower), lower.whole, STEPS).is_some()
}
