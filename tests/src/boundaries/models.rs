//! Models with as many locations, actions and edges as may be, and one more; sums of weights.

use crate::spell;

pub fn all() -> Vec<Vec<u32>> {
    [
        location_limits(),
        action_limits(),
        edge_limits(),
        weight_sums(),
    ]
    .concat()
}

/// 15 to 18 locations. The last one is good, has a spare bit, or follows weights that do not add up.
fn location_limits() -> Vec<Vec<u32>> {
    let mut models = Vec::new();
    for count in 15..=18 {
        for last in [spell::location(false), spell::location(true), 0x2000_0002] {
            for weight in [2, 1] {
                let mut words = vec![spell::head(1, 2)];
                words.extend(vec![spell::location(false); count - 1]);
                words.extend([spell::ACTION, spell::edge(0, 14, weight), last]);
                words.push(spell::start(0));
                models.push(words);
            }
        }
    }
    models
}

/// 31 to 34 actions, in one location or in several. The last one is good, has a spare bit, or
/// follows weights that do not add up.
fn action_limits() -> Vec<Vec<u32>> {
    let mut models = Vec::new();
    for count in 31..=34 {
        for per_location in [1, 3, 11, 40] {
            for (last, weight) in [(spell::ACTION, 2), (spell::ACTION, 1), (0x3000_0001, 2)] {
                let mut words = vec![spell::head(1, 2)];
                for number in 1..count {
                    if (number - 1) % per_location == 0 {
                        words.push(spell::location(false));
                    }
                    let weight = if number + 1 == count { weight } else { 2 };
                    words.extend([spell::ACTION, spell::edge(0, 0, weight)]);
                }
                words.extend([last, spell::edge(1, 0, 2), spell::start(0)]);
                models.push(words);
            }
        }
    }
    models
}

/// 3 to 6 edges. The last is good, has a spare bit, resets a clock above C, weighs nothing, or leads
/// to a location that is not there.
fn edge_limits() -> Vec<Vec<u32>> {
    let good = spell::edge(0, 0, 1);
    let lasts = [
        good,
        good | 1 << 24,
        good | 1 << 21,
        good & !1,
        good | 1 << 16,
    ];
    let mut models = Vec::new();
    for count in 3..=6 {
        for last in lasts {
            for denominator in [count as u32, 4, 5, 7] {
                let head = spell::head(1, denominator);
                let mut words = vec![head, spell::location(false), spell::ACTION];
                words.extend(vec![good; count - 1]);
                words.extend([last, spell::start(0)]);
                models.push(words);
            }
        }
    }
    models
}

/// Weights whose sum is D, is not, or is D only in 16 bits; with each word that may come after, and
/// with none.
fn weight_sums() -> Vec<Vec<u32>> {
    let lists: [&[u32]; 9] = [
        &[65_535, 65_535, 65_535, 65_535],
        &[65_535, 65_535, 1],
        &[65_535, 65_535, 65_535, 2],
        &[65_535],
        &[65_534],
        &[65_534, 1],
        &[16_384, 16_384, 16_384, 16_383],
        &[32_768, 32_768],
        &[1, 1, 1, 65_532],
    ];
    let mut models = Vec::new();
    for list in lists {
        for end in ends() {
            let head = spell::head(1, 65_535);
            let mut words = vec![head, spell::location(false), spell::ACTION];
            words.extend(list.iter().map(|&weight| spell::edge(0, 0, weight)));
            words.extend(end);
            models.push(words);
        }
    }
    models
}

/// What may come after the last edge of a model with one location, right or wrong.
fn ends() -> [Vec<u32>; 9] {
    let start = spell::start(0);
    [
        vec![start],
        vec![spell::start(1)],
        vec![start | 1 << 4],
        vec![spell::location(false), start],
        vec![spell::location(false) | 1 << 1, start],
        vec![spell::ACTION, spell::edge(0, 0, 65_535), start],
        vec![0x5100_1000, start],
        vec![0xD000_0000],
        vec![],
    ]
}
