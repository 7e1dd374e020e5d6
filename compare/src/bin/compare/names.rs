//! Weekdays and months: every beginning of every name, in letters of any case, before each byte and before the end of the text, after what
//! leaves one day for each name.
use crate::cases::in_any_case;
use crate::facts::compare_both;
use crate::readings::Engines;
use crate::Tally;
use compare::random::Random;
use compare::rules::{forms_of, Calendar, MONTHS, WEEKDAYS};

/// Returns how many texts there were. Those that are a form of a name and nothing more are read by every engine.
pub fn compare(random: &mut Random, cal: &Calendar, tally: &mut Tally) -> usize {
    let mut count = 0;
    for (letters, names, format, text) in [("aA", &WEEKDAYS[..], "%G %V ", "2000 9 "), ("bBh", &MONTHS, "%Y %d ", "2000 9 ")] {
        let beginnings = names.iter().flat_map(|name| (1..=name.len()).map(|length| (*name, &name[..length])));
        for (name, beginning) in beginnings {
            let is_form = forms_of(name).iter().any(|(form, _)| *form == beginning);
            for after in (0..=255).map(Some).chain([None]) {
                let format = format!("{format}%{}", *random.pick(letters.as_bytes()) as char);
                let mut text = text.as_bytes().to_vec();
                text.extend(in_any_case(random, beginning));
                text.extend(after);
                let how_many = if is_form && after.is_none() { Engines::All } else { Engines::Drawn };
                compare_both(random, cal, tally, &format, &text, how_many);
                count += 1;
            }
        }
    }
    count
}
