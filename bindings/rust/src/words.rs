//! The four words of an answer: 0 and the values of an acceptance, or a refusal's number and place.

use std::fmt::Debug;

pub(crate) type Words = [u64; 4];

/// A word of an answer as the number that it must fit.
pub(crate) fn value<T: TryFrom<u64>>(call: &str, words: Words, index: usize) -> T {
    T::try_from(words[index]).unwrap_or_else(|_| broken(call, words))
}

/// The library gave what documents 01 and 02 do not have.
pub(crate) fn broken(call: &str, answer: impl Debug) -> ! {
    panic!(
        "broken link: libmiss_chance.a answered {call} with {answer:?}, which documents 01 and 02 \
         do not have"
    )
}
