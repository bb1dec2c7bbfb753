//! Claims, reaches and blocking; fixtures and movers (SURROUNDINGS.md).

/// The furthest that an edge of a claim may be from 0.
pub const CLAIM_EDGE: i64 = 4_000_000_000_000;
/// The furthest that a place of a thing or a horizon may be from 0.
pub const THING_EDGE: i64 = 2_000_000_000_000;
/// The highest speed of a claim.
pub const GREATEST_SPEED: u32 = 20_000_000;
/// The largest half side and the largest error of a mover.
pub const GREATEST_SIZE: u64 = 10_000_000_000;
/// The greatest age of a mover, in ms.
pub const GREATEST_AGE: u64 = 1_000;

/// Why a thing, a table of things or a horizon is not made.
#[derive(Clone, Copy, Debug, PartialEq, Eq)]
pub enum ThingFault {
    /// The first field out of its range, counted from 1.
    OutOfRange(u8),
    LowAboveHigh,
    TooMany,
}

impl ThingFault {
    pub fn number(&self) -> u8 {
        match self {
            ThingFault::OutOfRange(_) => 21,
            ThingFault::LowAboveHigh => 22,
            ThingFault::TooMany => 23,
        }
    }

    /// The field that the refusal names, where it names one.
    pub fn field(&self) -> Option<u8> {
        match self {
            ThingFault::OutOfRange(field) => Some(*field),
            ThingFault::LowAboveHigh | ThingFault::TooMany => None,
        }
    }
}

/// The side of a box on one axis, both edges included.
#[derive(Clone, Copy, Debug, PartialEq, Eq)]
pub struct Span {
    pub low: i64,
    pub high: i64,
}

impl Span {
    /// Both edges moved outwards. The answer is wider than any 64-bit edge can
    /// say, so it has edges of its own kind.
    pub fn moved_outwards(self, by: i128) -> WideSpan {
        WideSpan { low: i128::from(self.low) - by, high: i128::from(self.high) + by }
    }

    /// The edges as they are.
    pub fn wide(self) -> WideSpan {
        self.moved_outwards(0)
    }
}

/// A span whose edges have room for every sum in the rules.
#[derive(Clone, Copy, Debug, PartialEq, Eq)]
pub struct WideSpan {
    pub low: i128,
    pub high: i128,
}

impl WideSpan {
    pub fn around(centre: i128, by: i128) -> WideSpan {
        WideSpan { low: centre - by, high: centre + by }
    }

    pub fn is_empty(self) -> bool {
        self.low > self.high
    }

    pub fn contains(self, point: i128) -> bool {
        self.low <= point && point <= self.high
    }

    /// The whole numbers that lie in both.
    pub fn common(self, other: WideSpan) -> WideSpan {
        WideSpan { low: self.low.max(other.low), high: self.high.min(other.high) }
    }

    /// Its point nearest to another one, if it has a point.
    pub fn nearest(self, point: i128) -> Option<i128> {
        if self.is_empty() {
            return None;
        }
        Some(point.clamp(self.low, self.high))
    }
}

/// A thing is in the box now and leaves it on no side faster than the speed.
#[derive(Clone, Copy, Debug, PartialEq, Eq)]
pub struct Claim {
    pub label: u32,
    pub x: Span,
    pub y: Span,
    pub speed: u32,
}

/// The box in which a cart may be within a time, in ms.
#[derive(Clone, Copy, Debug, PartialEq, Eq)]
pub struct Reach {
    pub x: Span,
    pub y: Span,
    pub time: u32,
}

impl Claim {
    /// The sides of the box on x and y after some ms.
    pub fn sides_after(&self, ms: u64) -> (WideSpan, WideSpan) {
        let by = i128::from(self.speed) * i128::from(ms);
        (self.x.moved_outwards(by), self.y.moved_outwards(by))
    }

    /// The points that the box, moved outwards for the reach's time, and the
    /// reach have in common.
    pub fn common(&self, reach: &Reach) -> (WideSpan, WideSpan) {
        let (x, y) = self.sides_after(u64::from(reach.time));
        (x.common(reach.x.wide()), y.common(reach.y.wide()))
    }

    /// Whether there is such a point.
    pub fn blocks(&self, reach: &Reach) -> bool {
        let (x, y) = self.common(reach);
        !x.is_empty() && !y.is_empty()
    }

    /// Whether it keeps the limits of claims, as those of surroundings do.
    pub fn is_within_limits(&self) -> bool {
        let edges = -CLAIM_EDGE..=CLAIM_EDGE;
        let sides = [self.x, self.y];
        sides.iter().all(|s| s.low <= s.high && edges.contains(&s.low) && edges.contains(&s.high))
            && self.speed <= GREATEST_SPEED
    }
}

/// A kind of thing: rows of any value, each of which counts as a thing.
pub trait Kind: Copy {
    /// No claim of this kind is faster.
    const GREATEST_SPEED: u32;
    /// Why making a thing of the row is refused, if it is.
    fn fault(&self) -> Option<ThingFault>;
    /// What the row counts as: itself, or the thing at 0 if it is refused.
    fn counted(&self) -> Self;
    /// The claim of what the row counts as.
    fn claim(&self) -> Claim;
}

/// Whether a place is within the limits of things and horizons.
pub fn place_is_allowed(place: i64) -> bool {
    (-THING_EDGE..=THING_EDGE).contains(&place)
}

/// The field of the first of some checks that fails, counted from 1.
pub fn first_failing(checks: &[bool]) -> Option<u8> {
    let place = checks.iter().position(|passes| !passes)?;
    Some(place as u8 + 1)
}

/// A row of a table of fixtures, of any value.
#[derive(Clone, Copy, Debug, PartialEq, Eq)]
pub struct Fixture {
    pub label: u32,
    pub x: Span,
    pub y: Span,
}

impl Fixture {
    /// What a refused row counts as.
    pub const AT_ZERO: Fixture =
        Fixture { label: 0, x: Span { low: 0, high: 0 }, y: Span { low: 0, high: 0 } };
}

impl Kind for Fixture {
    const GREATEST_SPEED: u32 = 0;

    fn fault(&self) -> Option<ThingFault> {
        let checks = [
            true, // every label is allowed
            place_is_allowed(self.x.low),
            place_is_allowed(self.x.high),
            place_is_allowed(self.y.low),
            place_is_allowed(self.y.high),
        ];
        if let Some(field) = first_failing(&checks) {
            return Some(ThingFault::OutOfRange(field));
        }
        if self.x.low > self.x.high || self.y.low > self.y.high {
            return Some(ThingFault::LowAboveHigh);
        }
        None
    }

    fn counted(&self) -> Fixture {
        match self.fault() {
            None => *self,
            Some(_) => Fixture::AT_ZERO,
        }
    }

    fn claim(&self) -> Claim {
        let thing = self.counted();
        Claim { label: thing.label, x: thing.x, y: thing.y, speed: 0 }
    }
}

/// A row of a table of movers, of any value.
#[derive(Clone, Copy, Debug, PartialEq, Eq)]
pub struct Mover {
    pub label: u32,
    pub centre_x: i64,
    pub centre_y: i64,
    pub half_side: u64,
    pub error: u64,
    pub speed: u64,
    pub age: u64,
}

impl Mover {
    /// What a refused row counts as.
    pub const AT_ZERO: Mover =
        Mover { label: 0, centre_x: 0, centre_y: 0, half_side: 0, error: 0, speed: 0, age: 0 };

    /// Where a mover seen around a centre some time ago may be now. It is
    /// called for movers within their ranges only, so the edges fit.
    fn side(&self, centre: i64) -> Span {
        let ran = i128::from(self.speed) * i128::from(self.age);
        let by = i128::from(self.half_side) + i128::from(self.error) + ran;
        let side = WideSpan::around(i128::from(centre), by);
        let edge = |e: i128| i64::try_from(e).expect("an edge of a mover fits 64 bits");
        Span { low: edge(side.low), high: edge(side.high) }
    }
}

impl Kind for Mover {
    const GREATEST_SPEED: u32 = GREATEST_SPEED;

    /// A mover has no edges, so 22 cannot come.
    fn fault(&self) -> Option<ThingFault> {
        let checks = [
            true, // every label is allowed
            place_is_allowed(self.centre_x),
            place_is_allowed(self.centre_y),
            self.half_side <= GREATEST_SIZE,
            self.error <= GREATEST_SIZE,
            self.speed <= u64::from(GREATEST_SPEED),
            self.age <= GREATEST_AGE,
        ];
        first_failing(&checks).map(ThingFault::OutOfRange)
    }

    fn counted(&self) -> Mover {
        match self.fault() {
            None => *self,
            Some(_) => Mover::AT_ZERO,
        }
    }

    fn claim(&self) -> Claim {
        let thing = self.counted();
        Claim {
            label: thing.label,
            x: thing.side(thing.centre_x),
            y: thing.side(thing.centre_y),
            speed: u32::try_from(thing.speed).expect("the speed of a mover fits 32 bits"),
        }
    }
}

/// The reach of the worked cases: the first worked sum, with the cart at (0, 0).
#[cfg(test)]
pub(crate) fn worked_reach() -> Reach {
    let side = Span { low: -1_020_500_000, high: 1_020_500_000 };
    Reach { x: side, y: side, time: 1_100 }
}

/// The fixture of the worked cases.
#[cfg(test)]
pub(crate) fn worked_fixture(low_x: i64) -> Fixture {
    Fixture {
        label: 7,
        x: Span { low: low_x, high: 1_100_000_000 },
        y: Span { low: -500_000_000, high: 500_000_000 },
    }
}

/// The mover of the worked cases. The documents give it no label.
#[cfg(test)]
pub(crate) fn worked_mover(age: u64) -> Mover {
    Mover {
        label: 8,
        centre_x: 2_000_000_000,
        centre_y: 0,
        half_side: 300_000_000,
        error: 50_000_000,
        speed: 500_000,
        age,
    }
}

#[cfg(test)]
mod tests {
    use super::*;

    fn span(low: i64, high: i64) -> Span {
        Span { low, high }
    }

    fn fixture(numbers: [i64; 4]) -> Fixture {
        let [low_x, high_x, low_y, high_y] = numbers;
        Fixture { label: 5, x: span(low_x, high_x), y: span(low_y, high_y) }
    }

    #[test]
    fn worked_fixtures() {
        let reach = worked_reach();
        assert!(!worked_fixture(1_020_500_001).claim().blocks(&reach));
        assert!(worked_fixture(1_020_500_000).claim().blocks(&reach));
    }

    #[test]
    fn worked_movers() {
        let reach = worked_reach();
        assert!(!worked_mover(158).claim().blocks(&reach));
        assert!(worked_mover(159).claim().blocks(&reach));
    }

    /// The definition itself, by trying every point, on one small axis.
    fn has_common_point(claim: Span, by: i64, reach: Span) -> bool {
        (-12..=12).any(|p| {
            claim.low - by <= p && p <= claim.high + by && reach.low <= p && p <= reach.high
        })
    }

    #[test]
    fn blocking_is_having_a_common_point() {
        let everywhere = span(i64::MIN, i64::MAX);
        for numbers in 0..6_i64.pow(4) {
            let digit = |place: u32| numbers / 6_i64.pow(place) % 6 - 3;
            let (claimed, reached) = (span(digit(0), digit(1)), span(digit(2), digit(3)));
            for (speed, time) in [(0, 5), (1, 1), (2, 2), (5, 0)] {
                let wanted = has_common_point(claimed, i64::from(speed * time), reached);
                let on_x = Claim { label: 1, x: claimed, y: everywhere, speed };
                let on_y = Claim { label: 1, x: everywhere, y: claimed, speed };
                assert_eq!(on_x.blocks(&Reach { x: reached, y: everywhere, time }), wanted);
                assert_eq!(on_y.blocks(&Reach { x: everywhere, y: reached, time }), wanted);
            }
        }
    }

    #[test]
    fn blocking_at_the_ends_of_the_types() {
        let (least, most) = (span(i64::MIN, i64::MIN), span(i64::MAX, i64::MAX));
        let claim = |speed| Claim { label: 1, x: least, y: least, speed };
        let reach = |time| Reach { x: most, y: most, time };
        // From end to end of 64 bits it is 2^64 − 1; (2^32 − 1)² is less.
        assert!(!claim(u32::MAX).blocks(&reach(u32::MAX)));
        assert!(!claim(0).blocks(&reach(u32::MAX)));
        let halfway = Reach { x: span(0, 0), y: span(0, 0), time: u32::MAX };
        assert!(claim(u32::MAX).blocks(&halfway));
        // A reach with low above high has no point.
        let none = Reach { x: span(1, 0), y: span(0, 0), time: u32::MAX };
        assert!(!claim(u32::MAX).blocks(&none));
    }

    #[test]
    fn fixture_fields_at_their_limits() {
        let edges = [-THING_EDGE, THING_EDGE, -THING_EDGE, THING_EDGE];
        assert_eq!(fixture(edges).fault(), None);
        for place in 0..4 {
            for bad in [-THING_EDGE - 1, THING_EDGE + 1, i64::MIN, i64::MAX] {
                let mut numbers = edges;
                numbers[place] = bad;
                let fault = fixture(numbers).fault().unwrap();
                assert_eq!((fault.number(), fault.field()), (21, Some(place as u8 + 2)));
            }
        }
    }

    #[test]
    fn fixture_edges_in_order() {
        assert_eq!(fixture([3, 3, 4, 4]).fault(), None);
        for numbers in [[4, 3, 4, 4], [3, 3, 5, 4]] {
            let fault = fixture(numbers).fault().unwrap();
            assert_eq!((fault.number(), fault.field()), (22, None));
        }
        // 21 comes before 22, even with the later field.
        let fault = fixture([4, 3, 4, THING_EDGE + 1]).fault();
        assert_eq!(fault, Some(ThingFault::OutOfRange(5)));
    }

    #[test]
    fn a_refused_row_counts_as_the_thing_at_zero() {
        let zero = Claim { label: 0, x: span(0, 0), y: span(0, 0), speed: 0 };
        assert_eq!(fixture([4, 3, 4, 4]).claim(), zero);
        assert_eq!(fixture([0, i64::MAX, 0, 0]).counted(), Fixture::AT_ZERO);
        assert_eq!(worked_mover(1_001).claim(), zero);
        assert_eq!(worked_mover(u64::MAX).counted(), Mover::AT_ZERO);
        assert_eq!(Fixture::AT_ZERO.fault(), None);
        assert_eq!(Mover::AT_ZERO.fault(), None);
    }

    #[test]
    fn mover_places_at_their_limits() {
        for good in [-THING_EDGE, THING_EDGE] {
            assert_eq!(Mover { centre_x: good, centre_y: -good, ..worked_mover(0) }.fault(), None);
        }
        for bad in [-THING_EDGE - 1, THING_EDGE + 1, i64::MIN, i64::MAX] {
            let on_x = Mover { centre_x: bad, ..worked_mover(0) };
            let on_y = Mover { centre_y: bad, ..worked_mover(0) };
            assert_eq!(on_x.fault(), Some(ThingFault::OutOfRange(2)));
            assert_eq!(on_y.fault(), Some(ThingFault::OutOfRange(3)));
        }
    }

    #[test]
    fn mover_sizes_at_their_limits() {
        let fault = |fields: [u64; 4]| {
            let [half_side, error, speed, age] = fields;
            Mover { half_side, error, speed, age, ..Mover::AT_ZERO }.fault()
        };
        let greatest = [10_000_000_000, 10_000_000_000, 20_000_000, 1_000];
        assert_eq!(fault(greatest), None);
        for place in 0..4 {
            for bad in [greatest[place] + 1, u64::MAX] {
                let mut fields = greatest;
                fields[place] = bad;
                assert_eq!(fault(fields), Some(ThingFault::OutOfRange(place as u8 + 4)));
            }
        }
    }

    #[test]
    fn a_mover_of_any_values_is_refused_by_its_first_field() {
        let wild = Mover {
            label: u32::MAX,
            centre_x: i64::MIN,
            centre_y: i64::MAX,
            half_side: u64::MAX,
            error: u64::MAX,
            speed: u64::MAX,
            age: u64::MAX,
        };
        assert_eq!(wild.fault(), Some(ThingFault::OutOfRange(2)));
        assert_eq!(wild.claim(), Mover::AT_ZERO.claim());
    }

    #[test]
    fn the_claim_of_a_mover() {
        let claim = worked_mover(158).claim();
        assert_eq!(claim.x, span(1_571_000_000, 2_429_000_000));
        assert_eq!(claim.y, span(-429_000_000, 429_000_000));
        assert_eq!((claim.label, claim.speed), (8, 500_000));
    }

    #[test]
    fn claims_of_things_are_within_limits() {
        let mut mover = worked_mover(1_000);
        mover.centre_x = -THING_EDGE;
        mover.centre_y = THING_EDGE;
        mover.half_side = GREATEST_SIZE;
        mover.error = GREATEST_SIZE;
        mover.speed = u64::from(GREATEST_SPEED);
        assert!(mover.claim().is_within_limits());
        assert_eq!(mover.claim().speed, Mover::GREATEST_SPEED);
        assert!(worked_fixture(0).claim().is_within_limits());
        assert_eq!(worked_fixture(0).claim().speed, Fixture::GREATEST_SPEED);
    }

    #[test]
    fn limits_of_claims() {
        let side = span(-CLAIM_EDGE, CLAIM_EDGE);
        let good = Claim { label: u32::MAX, x: side, y: side, speed: GREATEST_SPEED };
        assert!(good.is_within_limits());
        assert!(!Claim { speed: GREATEST_SPEED + 1, ..good }.is_within_limits());
        assert!(!Claim { x: span(-CLAIM_EDGE - 1, 0), ..good }.is_within_limits());
        assert!(!Claim { y: span(0, CLAIM_EDGE + 1), ..good }.is_within_limits());
        assert!(!Claim { y: span(1, 0), ..good }.is_within_limits());
    }
}
