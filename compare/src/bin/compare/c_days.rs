//! The writer against the C library's strftime where the two have the same rules: years of four digits, and every conversion but %s.
use crate::library;
use compare::c_library;
use compare::random::Random;
use compare::rules::{Calendar, Moment};

/// The date conversions, on every day.
const DATES: &[u8] = b"%a %A %b %B %C %d %e %g %G %h %j %m %u %U %V %w %W %y %Y";
/// All that is left, on every eighth day.
const REST: &[u8] = b"%c|%D|%F|%H %I %k %l %M %n %p %P|%r|%R %S %t %T|%x|%X %% %Ec|%EC \
    %Ex %EX %Ey %EY %Od %Oe %OH %OI %Om %OM %OS %Ou %OU %OV %Ow %OW %Oy %z";

/// Returns how many days were compared.
pub fn compare(random: &mut Random, cal: &Calendar, mut differs: impl FnMut(&dyn std::fmt::Debug)) -> usize {
    let mut days = 0;
    for (i, d) in cal.days.iter().enumerate() {
        if d.year < 1000 {
            continue;
        }
        days += 1;
        let (year, month, day) = d.date();
        let fields = [year, month, day, random.from(0, 23), random.from(0, 59), random.from(0, 60)];
        let m = Moment::new(fields).with_offset(random.from(0, 2 * 1439) as i32 - 1439);
        for format in if i % 8 == 0 { &[DATES, REST][..] } else { &[DATES] } {
            let theirs = c_library::strftime(cal, format, &m);
            let mut ours = vec![0; theirs.len()];
            let found = library::strftime(format, &library::moment_words(&m), &mut ours);
            if found != (0, theirs.len() as u32) || ours != theirs {
                differs(&(m, found, String::from_utf8_lossy(&ours), String::from_utf8_lossy(&theirs)));
            }
        }
    }
    days
}
