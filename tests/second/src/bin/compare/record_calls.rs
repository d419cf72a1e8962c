//! Calls on records, beside the second program's session.
use crate::lent::Lent;
use crate::library;
use crate::part::Part;
use second::record::LENGTH;
use second::session::Session;

/// A function of the library, and its rule: the number that it gives, and what all that was lent holds afterwards.
pub struct Call {
    library: fn(&mut Lent) -> u8,
    rule: fn(&Lent) -> (u8, Lent),
}

pub const CONVERT: Call = Call {
    library: library::convert_record,
    rule: converted,
};

pub const FEED: Call = Call {
    library: library::feed,
    rule: fed,
};

impl Call {
    /// Compares the number that is given and all that was lent. Gives both.
    pub fn compare(&self, part: &mut Part, before: Lent) -> (u8, Lent) {
        let mut lent = before.clone();
        let given = (self.library)(&mut lent);
        let (should, after) = (self.rule)(&before);
        let same = given == should && lent == after;
        let difference = || {
            let [answered, right] = [lent.unlike(&after), after.unlike(&lent)];
            format!("{before}: answered {given}{answered}, should be {should}{right}")
        };
        part.count(given, (!same).then(difference));
        (given, lent)
    }
}

/// The output piece is judged here, and the rest by the session.
fn fed(before: &Lent) -> (u8, Lent) {
    let mut after = before.clone();
    if before.output.bytes().len() != LENGTH {
        return (8, after);
    }
    let [_, moved, refused, _] = before.counts;
    let mut session = Session { moved, refused };
    let given = match session.feed(before.input.bytes()) {
        Ok(moved) => {
            after.output.put(&moved.bytes());
            0
        }
        Err(number) => number,
    };
    after.counts[1] = session.moved;
    after.counts[2] = session.refused;
    (given, after)
}

/// As a session that was just opened does it; the counts that are there are not lent.
fn converted(before: &Lent) -> (u8, Lent) {
    let opened = Lent {
        counts: [0; 4],
        ..before.clone()
    };
    let (given, after) = fed(&opened);
    let counts = before.counts;
    (given, Lent { counts, ..after })
}
