//! Judges, boards and drafts that are wrong on purpose. Tests that let one of them pass would be worth nothing.

use crate::flawed::{flawed_judge, Flaw};
use crate::flawed_board::{BoardFlaw, Request};
use crate::flawed_draft::DraftFlaw;
use crate::reading::{self, Certificate, Counts, Refusal, Slot};
use crate::sides::Side;

type Judge = Box<dyn Fn(&[u32], &[u32]) -> Result<Certificate, Refusal>>;
type ReadModel = Box<dyn Fn(&[u32]) -> Result<Counts, Refusal>>;
type ZoneEmpty = Box<dyn Fn(u32, &[u32]) -> Result<bool, Refusal>>;
type ZoneInside = Box<dyn Fn(u32, &[u32], &[u32]) -> Result<bool, Refusal>>;
type Program = Box<dyn Fn(&[u8]) -> String>;
type Submit =
    Box<dyn Fn(&mut [Slot], &mut u32, u32, u32, &[u32], &[u32]) -> Result<Certificate, Refusal>>;
type Rank = Box<dyn Fn(&[Slot]) -> Result<Vec<usize>, Refusal>>;
type Draft = Box<dyn Fn(&[u32], u64, &mut [u32]) -> Result<usize, Refusal>>;

/// A side made of closures.
pub struct Wrong {
    pub name: String,
    judge: Judge,
    read_model: ReadModel,
    zone_empty: ZoneEmpty,
    zone_inside: ZoneInside,
    program: Program,
    submit: Submit,
    rank: Rank,
    draft: Draft,
}

impl Side for Wrong {
    fn judge(&self, model: &[u32], table: &[u32]) -> Result<Certificate, Refusal> {
        (self.judge)(model, table)
    }

    fn read_model(&self, words: &[u32]) -> Result<Counts, Refusal> {
        (self.read_model)(words)
    }

    fn zone_empty(&self, clocks: u32, words: &[u32]) -> Result<bool, Refusal> {
        (self.zone_empty)(clocks, words)
    }

    fn zone_inside(&self, clocks: u32, first: &[u32], second: &[u32]) -> Result<bool, Refusal> {
        (self.zone_inside)(clocks, first, second)
    }

    fn program(&self, bytes: &[u8]) -> String {
        (self.program)(bytes)
    }

    fn submit(
        &self,
        slots: &mut [Slot],
        allowance: &mut u32,
        team: u32,
        slot: u32,
        model: &[u32],
        table: &[u32],
    ) -> Result<Certificate, Refusal> {
        (self.submit)(slots, allowance, team, slot, model, table)
    }

    fn rank(&self, slots: &[Slot]) -> Result<Vec<usize>, Refusal> {
        (self.rank)(slots)
    }

    fn draft(&self, model: &[u32], rounds: u64, lent: &mut [u32]) -> Result<usize, Refusal> {
        (self.draft)(model, rounds, lent)
    }
}

/// All judges.
pub fn all() -> Vec<Wrong> {
    let mut all: Vec<Wrong> = Flaw::ALL.into_iter().map(flawed).collect();
    all.extend(wrong_judges());
    all.extend(wrong_readers());
    all.extend(wrong_questions());
    all.extend(wrong_programs());
    all.extend([1, 2, 3, 4, 5, 6].map(misplaced_in_model));
    all.extend((11..=21).chain(51..=53).map(misplaced_in_table));
    all.extend([31, 32, 33].map(misplaced_in_question));
    for (one, other) in [(1, 11), (2, 12), (17, 18), (20, 21), (51, 52), (52, 53)] {
        all.push(exchanged_in_judging(one, other));
    }
    all.push(exchanged_in_question(32, 33));
    all
}

/// All boards. Their judge is right.
pub fn boards() -> Vec<Wrong> {
    let mut boards: Vec<Wrong> = BoardFlaw::ALL.into_iter().map(flawed_board).collect();
    boards.extend([54, 55, 56].map(misplaced_in_submission));
    boards.extend([(54, 55), (54, 56), (55, 56)].map(exchanged_in_submission));
    boards.push(Wrong {
        rank: Box::new(|slots| reading::rank(slots).map_err(|refusal| moved(refusal, 54))),
        ..right("misplaces 54 in ranking")
    });
    boards
}

/// All drafts. Their judge is right.
pub fn drafts() -> Vec<Wrong> {
    let mut drafts: Vec<Wrong> = DraftFlaw::ALL.into_iter().map(flawed_draft).collect();
    let numbers = [1, 2, 3, 4, 5, 6, 58, 59, 60];
    drafts.extend(numbers.map(misplaced_in_draft));
    drafts.extend([(58, 59), (59, 60), (58, 60)].map(exchanged_in_draft));
    drafts
}

/// The reading itself, to be spoiled in one call.
pub fn right(name: &str) -> Wrong {
    Wrong {
        name: name.to_string(),
        judge: Box::new(reading::judge),
        read_model: Box::new(reading::read_model),
        zone_empty: Box::new(reading::zone_empty),
        zone_inside: Box::new(reading::zone_inside),
        program: Box::new(reading::program),
        submit: Box::new(reading::submit),
        rank: Box::new(reading::rank),
        draft: Box::new(reading::draft),
    }
}

fn with_judge(
    name: &str,
    judge: impl Fn(&[u32], &[u32]) -> Result<Certificate, Refusal> + 'static,
) -> Wrong {
    Wrong {
        judge: Box::new(judge),
        ..right(name)
    }
}

fn flawed(flaw: Flaw) -> Wrong {
    with_judge(&format!("{flaw:?}"), move |model, table| {
        flawed_judge(flaw, model, table)
    })
}

pub fn flawed_board(flaw: BoardFlaw) -> Wrong {
    Wrong {
        submit: Box::new(move |slots, allowance, team, slot, model, table| {
            flaw.submit(slots, allowance, Request { team, slot }, model, table)
        }),
        rank: Box::new(move |slots| flaw.rank(slots)),
        ..right(&format!("{flaw:?}"))
    }
}

/// A right board whose refusals are changed.
fn with_refusals(name: String, change: impl Fn(Refusal) -> Refusal + 'static) -> Wrong {
    Wrong {
        submit: Box::new(move |slots, allowance, team, slot, model, table| {
            let answer = reading::submit(slots, allowance, team, slot, model, table);
            answer.map_err(&change)
        }),
        ..right(&name)
    }
}

fn misplaced_in_submission(number: u32) -> Wrong {
    with_refusals(format!("misplaces {number}"), move |refusal| {
        moved(refusal, number)
    })
}

fn exchanged_in_submission((one, other): (u32, u32)) -> Wrong {
    with_refusals(format!("exchanges {one} and {other}"), move |refusal| {
        exchanged(refusal, one, other)
    })
}

pub fn flawed_draft(flaw: DraftFlaw) -> Wrong {
    Wrong {
        draft: Box::new(move |model, rounds, lent| flaw.draft(model, rounds, lent)),
        ..right(&format!("{flaw:?}"))
    }
}

/// A right draft whose refusals are changed.
fn with_draft_refusals(name: String, change: impl Fn(Refusal) -> Refusal + 'static) -> Wrong {
    Wrong {
        draft: Box::new(move |model, rounds, lent| {
            reading::draft(model, rounds, lent).map_err(&change)
        }),
        ..right(&name)
    }
}

fn misplaced_in_draft(number: u32) -> Wrong {
    with_draft_refusals(format!("misplaces {number}"), move |refusal| {
        moved(refusal, number)
    })
}

fn exchanged_in_draft((one, other): (u32, u32)) -> Wrong {
    with_draft_refusals(format!("exchanges {one} and {other}"), move |refusal| {
        exchanged(refusal, one, other)
    })
}

fn wrong_judges() -> Vec<Wrong> {
    vec![
        with_judge("ignores strictness", |model, table| {
            reading::judge(&not_strict(model), &not_strict(table))
        }),
        with_judge("answers V/V for all tables", |model, table| {
            reading::judge(model, table).map(|right| Certificate {
                b: right.whole,
                ..right
            })
        }),
        with_judge("refuses every table", |model, table| {
            reading::judge(model, table).and(Err(Refusal {
                number: 11,
                place: 0,
            }))
        }),
        with_judge("invents the node count", |model, table| {
            reading::judge(model, table).map(|right| Certificate {
                nodes: right.nodes.max(2),
                ..right
            })
        }),
        with_judge("knows no cuts", |model, table| {
            reading::judge(model, &changed_cuts(table, |word| word & 0x0FFF_FFFF))
        }),
        with_judge("takes any j in a cut", |model, table| {
            reading::judge(model, &changed_cuts(table, |word| word & !(0xF << 20)))
        }),
        with_judge("ignores strictness of a cut", |model, table| {
            reading::judge(model, &changed_cuts(table, |word| word & !(1 << 19)))
        }),
        with_judge("reads a table before the model", |model, table| {
            if table.is_empty() {
                return Err(Refusal {
                    number: 11,
                    place: 0,
                });
            }
            reading::judge(model, table)
        }),
    ]
}

fn wrong_readers() -> Vec<Wrong> {
    let with_reader = |name, read: fn(&[u32]) -> Result<Counts, Refusal>| Wrong {
        read_model: Box::new(read),
        ..right(name)
    };
    vec![
        with_reader("reads without strictness", |words| {
            reading::read_model(&not_strict(words))
        }),
        with_reader("counts edges as actions", |words| {
            reading::read_model(words).map(|counts| Counts {
                edges: counts.actions,
                ..counts
            })
        }),
        with_reader("asks weights before what follows", |words| {
            reading::read_model(words).map_err(|refusal| match refusal.number {
                3 => Refusal {
                    number: 4,
                    ..refusal
                },
                _ => refusal,
            })
        }),
    ]
}

fn wrong_questions() -> Vec<Wrong> {
    vec![
        Wrong {
            zone_empty: Box::new(|clocks, words| reading::zone_empty(clocks, &at_scale_one(words))),
            ..right("asks emptiness at scale 1")
        },
        Wrong {
            zone_empty: Box::new(|clocks, words| reading::zone_empty(clocks, &not_strict(words))),
            ..right("empty without strictness")
        },
        Wrong {
            zone_inside: Box::new(|clocks, first, second| {
                let right = reading::zone_inside(clocks, first, second)?;
                Ok(right && second.iter().all(|word| first.contains(word)))
            }),
            ..right("compares zones before tightening")
        },
        Wrong {
            zone_inside: Box::new(|clocks, first, second| {
                reading::zone_inside(clocks, &not_strict(first), &not_strict(second))
            }),
            ..right("inside without strictness")
        },
        Wrong {
            zone_empty: Box::new(|clocks, words| reading::zone_empty(clocks & 0xFF, words)),
            ..right("takes the number of clocks as a byte")
        },
    ]
}

fn wrong_programs() -> Vec<Wrong> {
    let with_program = |name, program: fn(&[u8]) -> String| Wrong {
        program: Box::new(program),
        ..right(name)
    };
    vec![
        with_program("prints no line feed", |bytes| {
            reading::program(bytes).trim_end().to_string()
        }),
        with_program("asks 41 before 42", |bytes| {
            if bytes.len() % 4 != 0 {
                return "REFUSED 41 0\n".to_string();
            }
            reading::program(bytes)
        }),
        with_program("takes 65,536 bytes for too many", |bytes| {
            if bytes.len() == 65_536 {
                return "REFUSED 42 0\n".to_string();
            }
            reading::program(bytes)
        }),
        with_program("leaves the odd bytes", |bytes| {
            if bytes.len() > 65_536 {
                return reading::program(bytes);
            }
            reading::program(&bytes[..bytes.len() / 4 * 4])
        }),
    ]
}

fn moved(refusal: Refusal, number: u32) -> Refusal {
    let place = refusal.place + usize::from(refusal.number == number);
    Refusal { place, ..refusal }
}

/// One word too far with one refusal.
fn misplaced_in_model(number: u32) -> Wrong {
    let read =
        move |words: &[u32]| reading::read_model(words).map_err(|refusal| moved(refusal, number));
    Wrong {
        read_model: Box::new(read),
        ..right(&format!("misplaces {number}"))
    }
}

fn misplaced_in_table(number: u32) -> Wrong {
    with_judge(&format!("misplaces {number}"), move |model, table| {
        reading::judge(model, table).map_err(|refusal| moved(refusal, number))
    })
}

fn misplaced_in_question(number: u32) -> Wrong {
    let inside = move |clocks, first: &[u32], second: &[u32]| {
        reading::zone_inside(clocks, first, second).map_err(|refusal| moved(refusal, number))
    };
    Wrong {
        zone_inside: Box::new(inside),
        ..right(&format!("misplaces {number}"))
    }
}

fn exchanged(refusal: Refusal, one: u32, other: u32) -> Refusal {
    let number = match refusal.number {
        number if number == one => other,
        number if number == other => one,
        number => number,
    };
    Refusal { number, ..refusal }
}

/// Each of two numbers where the other is due, at the right place.
fn exchanged_in_judging(one: u32, other: u32) -> Wrong {
    let name = format!("exchanges {one} and {other}");
    with_judge(&name, move |model, table| {
        reading::judge(model, table).map_err(|refusal| exchanged(refusal, one, other))
    })
}

fn exchanged_in_question(one: u32, other: u32) -> Wrong {
    let inside = move |clocks, first: &[u32], second: &[u32]| {
        reading::zone_inside(clocks, first, second)
            .map_err(|refusal| exchanged(refusal, one, other))
    };
    Wrong {
        zone_inside: Box::new(inside),
        ..right(&format!("exchanges {one} and {other}"))
    }
}

/// Every D word changed.
fn changed_cuts(words: &[u32], change: impl Fn(u32) -> u32) -> Vec<u32> {
    let changed = |&word: &u32| {
        if word >> 28 == 0xD {
            change(word)
        } else {
            word
        }
    };
    words.iter().map(changed).collect()
}

/// Every bound with its strict bit cleared.
fn not_strict(words: &[u32]) -> Vec<u32> {
    let clear = |&word: &u32| {
        if word >> 28 == 5 {
            word & !(1 << 19)
        } else {
            word
        }
    };
    words.iter().map(clear).collect()
}

/// Every strict bound as one lower by one: the same at scale 1 only.
fn at_scale_one(words: &[u32]) -> Vec<u32> {
    let lower = |&word: &u32| {
        let strict = word >> 28 == 5 && word >> 19 & 1 == 1 && word & 0x1FFF > 1;
        if strict {
            (word & !(1 << 19)) - 1
        } else {
            word
        }
    };
    words.iter().map(lower).collect()
}
