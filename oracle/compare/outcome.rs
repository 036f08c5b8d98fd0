//! Answers as the entries give them, and lists as a report shows them.

use plain::Refused;
use socwr::Answer;

pub fn answer(found: Result<u64, Refused>) -> Answer {
    match found {
        Ok(value) => Answer { number: 0, value },
        Err(Refused { number, value }) => Answer { number, value },
    }
}

/// The first elements of a list.
pub fn brief<T: std::fmt::Debug>(list: &[T]) -> String {
    let dots = if list.len() > 24 { " .." } else { "" };
    format!("{:?}{dots}", &list[..list.len().min(24)])
}
