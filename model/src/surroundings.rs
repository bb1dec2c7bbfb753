//! Surroundings: what is around a cart, as a list of claims with one question
//! (SURROUNDINGS.md).

use crate::claims::{
    first_failing, place_is_allowed, Claim, Fixture, Kind, Mover, Reach, Span, ThingFault,
    CLAIM_EDGE, GREATEST_SPEED,
};

/// The most things that a table may have.
pub const MOST_THINGS: usize = 1_024;

/// The label of every strip of a horizon.
pub const STRIP_LABEL: u32 = 4_294_967_295;

/// A table of at most 1,024 things of one kind.
#[derive(Clone, Debug, PartialEq, Eq)]
pub struct Roster<K> {
    rows: Vec<K>,
}

impl<K: Kind> Roster<K> {
    pub fn new(rows: &[K]) -> Result<Roster<K>, ThingFault> {
        if rows.len() > MOST_THINGS {
            return Err(ThingFault::TooMany);
        }
        Ok(Roster { rows: rows.to_vec() })
    }

    /// The claims of its things, in table order.
    pub fn claims(&self) -> Vec<Claim> {
        self.rows.iter().map(K::claim).collect()
    }
}

/// What a horizon sees: a rectangle, and a speed for whatever is outside it.
#[derive(Clone, Copy, Debug, PartialEq, Eq)]
pub struct Seen {
    x: Span,
    y: Span,
    speed: u32,
}

impl Seen {
    /// The fields are low x, high x, low y, high y and the speed.
    pub fn new(x: Span, y: Span, speed: u64) -> Result<Seen, ThingFault> {
        let checks = [
            place_is_allowed(x.low),
            place_is_allowed(x.high),
            place_is_allowed(y.low),
            place_is_allowed(y.high),
            speed <= u64::from(GREATEST_SPEED),
        ];
        if let Some(field) = first_failing(&checks) {
            return Err(ThingFault::OutOfRange(field));
        }
        if x.low > x.high || y.low > y.high {
            return Err(ThingFault::LowAboveHigh);
        }
        let speed = u32::try_from(speed).expect("a speed in its range fits 32 bits");
        Ok(Seen { x, y, speed })
    }

    /// Left, right, under and over the rectangle.
    pub fn strips(&self) -> [Claim; 4] {
        let every = Span { low: -CLAIM_EDGE, high: CLAIM_EDGE };
        let before = |seen: Span| Span { low: -CLAIM_EDGE, high: seen.low - 1 };
        let after = |seen: Span| Span { low: seen.high + 1, high: CLAIM_EDGE };
        let strip = |x: Span, y: Span| Claim { label: STRIP_LABEL, x, y, speed: self.speed };
        [
            strip(before(self.x), every),
            strip(after(self.x), every),
            strip(every, before(self.y)),
            strip(every, after(self.y)),
        ]
    }
}

/// Everything that may be around a cart.
#[derive(Clone, Debug, PartialEq, Eq)]
pub enum Surroundings {
    Fixtures(Roster<Fixture>),
    Movers(Roster<Mover>),
    Pair(Box<Surroundings>, Box<Surroundings>),
    Horizon(Seen, Box<Surroundings>),
}

impl Surroundings {
    /// Surroundings that mean the empty list.
    pub fn nothing() -> Surroundings {
        Surroundings::Fixtures(Roster { rows: Vec::new() })
    }

    pub fn fixtures(rows: &[Fixture]) -> Result<Surroundings, ThingFault> {
        Ok(Surroundings::Fixtures(Roster::new(rows)?))
    }

    pub fn movers(rows: &[Mover]) -> Result<Surroundings, ThingFault> {
        Ok(Surroundings::Movers(Roster::new(rows)?))
    }

    pub fn pair(first: Surroundings, second: Surroundings) -> Surroundings {
        Surroundings::Pair(Box::new(first), Box::new(second))
    }

    pub fn horizon(seen: Seen, below: Surroundings) -> Surroundings {
        Surroundings::Horizon(seen, Box::new(below))
    }

    /// The list of claims that they mean.
    pub fn claims(&self) -> Vec<Claim> {
        match self {
            Surroundings::Fixtures(roster) => roster.claims(),
            Surroundings::Movers(roster) => roster.claims(),
            Surroundings::Pair(first, second) => {
                let mut list = first.claims();
                list.extend(second.claims());
                list
            }
            Surroundings::Horizon(seen, below) => {
                let mut list = seen.strips().to_vec();
                list.extend(below.claims());
                list
            }
        }
    }

    /// The question: the first claim of the list that blocks the reach.
    pub fn first_blocking(&self, reach: &Reach) -> Option<Claim> {
        first_blocking(&self.claims(), reach)
    }
}

/// The question to a list of claims.
pub fn first_blocking(claims: &[Claim], reach: &Reach) -> Option<Claim> {
    claims.iter().find(|claim| claim.blocks(reach)).copied()
}

#[cfg(test)]
mod tests {
    use super::*;
    use crate::claims::{worked_fixture, worked_mover, worked_reach, THING_EDGE};

    fn span(low: i64, high: i64) -> Span {
        Span { low, high }
    }

    fn label(answer: Option<Claim>) -> Option<u32> {
        answer.map(|claim| claim.label)
    }

    #[test]
    fn worked_cases() {
        let reach = worked_reach();
        for (low_x, blocks) in [(1_020_500_001, None), (1_020_500_000, Some(7))] {
            let around = Surroundings::fixtures(&[worked_fixture(low_x)]).unwrap();
            assert_eq!(label(around.first_blocking(&reach)), blocks);
        }
        for (age, blocks) in [(158, None), (159, Some(8))] {
            let around = Surroundings::movers(&[worked_mover(age)]).unwrap();
            assert_eq!(label(around.first_blocking(&reach)), blocks);
        }
    }

    #[test]
    fn rosters_at_their_limit() {
        for (rows, good) in [(0, true), (1_023, true), (1_024, true), (1_025, false)] {
            let fixtures = Surroundings::fixtures(&vec![Fixture::AT_ZERO; rows]);
            let movers = Surroundings::movers(&vec![Mover::AT_ZERO; rows]);
            for around in [fixtures, movers] {
                match around {
                    Ok(around) => assert!(good && around.claims().len() == rows),
                    Err(fault) => {
                        assert!(!good);
                        assert_eq!((fault.number(), fault.field()), (23, None));
                    }
                }
            }
        }
    }

    #[test]
    fn the_first_in_table_order_is_answered() {
        let rows = [1, 2, 3].map(|label| Fixture { label, ..worked_fixture(0) });
        let around = Surroundings::fixtures(&rows).unwrap();
        assert_eq!(label(around.first_blocking(&worked_reach())), Some(1));
        // The first is out of the way; a refused row is the fixture at 0.
        let far = Fixture { x: span(2_000_000_000, 2_000_000_000), ..rows[0] };
        let refused = Fixture { x: span(2, 1), ..rows[1] };
        let around = Surroundings::fixtures(&[far, refused, rows[2]]).unwrap();
        assert_eq!(label(around.first_blocking(&worked_reach())), Some(0));
    }

    #[test]
    fn a_pair_is_one_list_and_then_the_other() {
        let fixtures = || Surroundings::fixtures(&[worked_fixture(0)]).unwrap();
        let movers = || Surroundings::movers(&[worked_mover(159)]).unwrap();
        let reach = worked_reach();
        let one = Surroundings::pair(fixtures(), movers());
        let other = Surroundings::pair(movers(), fixtures());
        assert_eq!(label(one.first_blocking(&reach)), Some(7));
        assert_eq!(label(other.first_blocking(&reach)), Some(8));
        let late = Surroundings::pair(Surroundings::nothing(), movers());
        assert_eq!(label(late.first_blocking(&reach)), Some(8));
        assert_eq!(Surroundings::nothing().first_blocking(&reach), None);
    }

    #[test]
    fn the_strips_of_a_horizon() {
        let every = span(-4_000_000_000_000, 4_000_000_000_000);
        let seen = Seen::new(span(-5, 6), span(-7, 8), 9).unwrap();
        let sides = seen.strips().map(|strip| (strip.x, strip.y));
        assert_eq!(sides[0], (span(-4_000_000_000_000, -6), every));
        assert_eq!(sides[1], (span(7, 4_000_000_000_000), every));
        assert_eq!(sides[2], (every, span(-4_000_000_000_000, -8)));
        assert_eq!(sides[3], (every, span(9, 4_000_000_000_000)));
        assert!(seen.strips().iter().all(|s| s.label == u32::MAX && s.speed == 9));
        assert!(seen.strips().iter().all(Claim::is_within_limits));
    }

    #[test]
    fn a_horizon_stands_before_what_is_below() {
        let side = span(-1_020_500_000, 1_020_500_000);
        let below = || Surroundings::fixtures(&[worked_fixture(0)]).unwrap();
        let wide = Surroundings::horizon(Seen::new(side, side, 0).unwrap(), below());
        assert_eq!(label(wide.first_blocking(&worked_reach())), Some(7));
        let narrow = span(side.low, side.high - 1);
        let narrow = Surroundings::horizon(Seen::new(narrow, side, 0).unwrap(), below());
        assert_eq!(label(narrow.first_blocking(&worked_reach())), Some(STRIP_LABEL));
        assert_eq!(narrow.claims().len(), 5);
    }

    #[test]
    fn horizon_fields_at_their_limits() {
        let edges = [-THING_EDGE, THING_EDGE, -THING_EDGE, THING_EDGE];
        let seen = |e: [i64; 4], speed| Seen::new(span(e[0], e[1]), span(e[2], e[3]), speed);
        let greatest = seen(edges, 20_000_000).unwrap();
        assert!(greatest.strips().iter().all(Claim::is_within_limits));
        for place in 0..4 {
            for bad in [-THING_EDGE - 1, THING_EDGE + 1, i64::MIN, i64::MAX] {
                let mut numbers = edges;
                numbers[place] = bad;
                let fault = seen(numbers, u64::MAX).unwrap_err();
                assert_eq!((fault.number(), fault.field()), (21, Some(place as u8 + 1)));
            }
        }
        for speed in [20_000_001, u64::MAX] {
            assert_eq!(seen(edges, speed).unwrap_err(), ThingFault::OutOfRange(5));
        }
    }

    #[test]
    fn horizon_edges_in_order() {
        assert!(Seen::new(span(3, 3), span(4, 4), 0).is_ok());
        assert_eq!(Seen::new(span(4, 3), span(4, 4), 0).unwrap_err().number(), 22);
        assert_eq!(Seen::new(span(3, 3), span(5, 4), 0).unwrap_err().number(), 22);
        let fault = Seen::new(span(4, 3), span(4, 4), 20_000_001).unwrap_err();
        assert_eq!(fault, ThingFault::OutOfRange(5));
    }
}
