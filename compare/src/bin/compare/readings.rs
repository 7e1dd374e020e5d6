//! Readings by every engine: the skipping one, the plain one, and the plain one with budgets about the days that it examines; and their
//! reasons.
use crate::library::{By, Lent, Told, REASON_WORDS, WORDS};
use crate::Tally;
use compare::random::Random;
use compare::rules::{Calendar, Engine, Form, Matched, Part, Reading, Reason};

/// The days that the plain engine may examine for a case, on the average: a search of more days is run less often, by so much.
const FEW: u32 = 3000;

/// The numbers by which the library is told of the plain engine with a budget: any but 0 and 1.
const WITHIN: [u32; 10] = [2, 2, 2, 3, 255, 256, 257, 1 << 16, 1 << 31, u32::MAX];

/// What a reader is called in the tally: by the skipping engine, by the plain one, and by the plain one with a budget.
pub type Names = [&'static str; 3];
pub const STRPTIME: Names = ["strptime", "strptime, plain", "strptime, budget"];
pub const READ: Names = ["read", "read, plain", "read, budget"];
pub const STRANGE: Names = ["read, strange", "the same, plain", "the same, budget"];

/// The number of a name's form, 0 for none (RULES 10).
pub fn form_number(form: Option<Form>) -> usize {
    match form {
        None => 0,
        Some(Form::Full) => 1,
        Some(Form::Middle) => 2,
        Some(Form::Short) => 3,
    }
}

/// A reading as its twenty words (RULES 10).
pub fn words(r: &Reading) -> [u32; WORDS] {
    let mut w = [0; WORDS];
    w[0] = r.number;
    w[1] = r.place;
    let put = |w: &mut [u32; WORDS], at: usize, (y, m, d): (u32, u32, u32)| w[at..at + 3].copy_from_slice(&[y, m, d]);
    if let Some(day) = r.day {
        put(&mut w, 2, day);
    }
    for (at, said) in [(5, r.hour), (7, r.minute), (9, r.second)] {
        if let Some(n) = said {
            w[at] = 1;
            w[at + 1] = n;
        }
    }
    if let Some([a, b]) = r.two_days {
        put(&mut w, 2, a);
        put(&mut w, 11, b);
    }
    if let Some([a, b]) = r.two_hours {
        w[6] = a;
        w[14] = b;
    }
    w[15] = r.examined;
    w[16] = form_number(r.forms.weekday) as u32;
    w[17] = form_number(r.forms.month) as u32;
    if let Some(minutes) = r.offset {
        w[18] = 1;
        w[19] = minutes as u32;
    }
    w
}

/// A reason, or none, as its 33 words (RULES 10).
pub fn reason_words(reason: Option<&Reason>) -> [u32; REASON_WORDS] {
    let mut w = [0; REASON_WORDS];
    match reason {
        Some(Reason::Quarrel(named)) => {
            for (kind, words) in named {
                w[2 * kind + 1] = words.from as u32;
                w[2 * kind + 2] = words.next as u32;
            }
        }
        Some(Reason::Differ(Part::Year)) => w[0] = 1,
        Some(Reason::Differ(Part::Month)) => w[0] = 2,
        Some(Reason::Differ(Part::Day)) => w[0] = 3,
        Some(Reason::Hours(_)) | None => {}
    }
    w
}

/// What a text comes to by the rules, and its reason, which is the same by every engine (RULES 8.5).
pub struct Judged {
    pub matched: Matched,
    pub reason: Option<Reason>,
}

impl Judged {
    pub fn new(cal: &Calendar, matched: Matched) -> Judged {
        let reason = matched.reason(cal, &matched.reading(Engine::Skipping));
        Judged { matched, reason }
    }
}

/// What the library finds for a text, if it is not this.
pub fn read_otherwise(random: &mut Random, by: By, text: &[u8], told: Told, reading: &Reading) -> Option<String> {
    let mut lent = Lent::new(random, WORDS, |n| n as u32);
    let answer = by.read(text, told, lent.slice());
    let agrees = answer == (reading.number, reading.place) && lent.is(&words(reading));
    (!agrees).then(|| format!("found {answer:?} {:?}", lent.slice()))
}

/// The same for its reason.
pub fn explained_otherwise(random: &mut Random, by: By, text: &[u8], reason: Option<&Reason>) -> Option<String> {
    let mut lent = Lent::new(random, REASON_WORDS, |n| n as u32);
    by.explain(text, lent.slice());
    let agrees = lent.is(&reason_words(reason));
    (!agrees).then(|| format!("explained {:?}", lent.slice()))
}

/// Any budget, and any number but 0 and 1 for the engine that looks at it.
fn told(random: &mut Random, engine: Engine) -> Told {
    let any = random.next() as u32 >> random.below(32);
    match engine {
        Engine::Skipping => Told { engine: 0, budget: any },
        Engine::Plain => Told { engine: 1, budget: any },
        Engine::Within(budget) => Told { engine: *random.pick(&WITHIN), budget },
    }
}

/// How many engines a case is read by.
#[derive(Clone, Copy, PartialEq, Eq)]
pub enum Engines {
    /// The skipping one.
    Skipping,
    /// That, and a small budget. Where the plain one examines few days, or once in a while, also that; where nothing is searched, once in
    /// a while too.
    Drawn,
    All,
}

/// The engines that a case is read by: with the plain one come budgets at the days that it examines, one above and one below, and the
/// greatest.
fn engines(random: &mut Random, matched: &Matched, how_many: Engines) -> Vec<Engine> {
    if how_many == Engines::Skipping {
        return vec![Engine::Skipping];
    }
    let plain = matched.reading(Engine::Plain).examined;
    let skipping = matched.reading(Engine::Skipping).examined;
    let small = match random.below(4) {
        0 if skipping <= FEW => skipping,
        1 => random.from(0, 2),
        _ => random.from(0, FEW),
    };
    let mut all = vec![Engine::Skipping, Engine::Within(small)];
    let odds = if plain == 0 { 15 } else { 100 };
    if how_many == Engines::All || random.from(0, plain) < FEW && random.chance(odds) {
        all.extend([Engine::Plain, Engine::Within(plain), Engine::Within(plain + 1)]);
        all.extend(plain.checked_sub(1).map(Engine::Within));
        if random.chance(20) {
            all.push(Engine::Within(u32::MAX));
        }
    }
    all
}

/// One reader on a text.
pub fn compare(random: &mut Random, tally: &mut Tally, names: &Names, how_many: Engines, by: By, text: &[u8], judged: &Judged) {
    for engine in engines(random, &judged.matched, how_many) {
        let name = match engine {
            Engine::Skipping => names[0],
            Engine::Plain => names[1],
            Engine::Within(_) => names[2],
        };
        let reading = judged.matched.reading(engine);
        let told = told(random, engine);
        tally.count_reading(name, &reading);
        if let Some(found) = read_otherwise(random, by, text, told, &reading) {
            tally.differs(name, &(by, text.escape_ascii().to_string(), told, found, &reading));
        }
    }
    let reason = judged.reason.as_ref();
    tally.count_reason(reason);
    if let Some(found) = explained_otherwise(random, by, text, reason) {
        tally.differs("explain", &(by, text.escape_ascii().to_string(), found, reason));
    }
}
