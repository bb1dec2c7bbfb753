//! The gate: tick and release (GATE.md).

use crate::claims::{Claim, Reach, Span};
use crate::plate::Plate;
use crate::run_out::{acceleration_is_allowed, run_out, RunOut, GREATEST_MEASURED_SPEED};
use crate::surroundings::first_blocking;

/// The furthest from 0 that a measured x or y may be.
pub const GREATEST_MEASURED_PLACE: i64 = 1_000_000_000_000;

/// The largest size of a radius, in mm.
pub const GREATEST_RADIUS: u64 = 1_000_000;

#[derive(Clone, Copy, Debug, PartialEq, Eq)]
pub enum Curve {
    Straight,
    /// An arc of a signed radius, in mm.
    Arc(i64),
}

#[derive(Clone, Copy, Debug, PartialEq, Eq)]
pub struct Proposal {
    pub acceleration: i64,
    pub curve: Curve,
}

/// An order to the drive has the form of a proposal.
pub type Order = Proposal;

/// Place and speed as the sensors say, of any value.
#[derive(Clone, Copy, Debug, PartialEq, Eq)]
pub struct Measurement {
    pub x: i64,
    pub y: i64,
    pub speed: i64,
}

/// What an accepted tick leaves standing.
#[derive(Clone, Copy, Debug, PartialEq, Eq)]
pub struct Ticket {
    pub acceleration: i64,
    pub reach: Reach,
}

#[derive(Clone, Copy, Debug, PartialEq, Eq)]
pub enum State {
    Open,
    /// Shut by this field of a measurement, 1 to 3, until a release.
    Tripped(u8),
}

/// Why a tick is refused.
#[derive(Clone, Copy, Debug, PartialEq, Eq)]
pub enum TickFault {
    Tripped,
    /// The first field of the measurement out of its range, 1 to 3.
    Measured(u8),
    Acceleration,
    Radius,
    TopSpeed,
    TurnLimit,
    /// The first claim that blocks the reach.
    Blocked(Claim),
}

impl TickFault {
    pub fn number(&self) -> u8 {
        match self {
            TickFault::Tripped => 31,
            TickFault::Measured(_) => 32,
            TickFault::Acceleration => 33,
            TickFault::Radius => 34,
            TickFault::TopSpeed => 38,
            TickFault::TurnLimit => 39,
            TickFault::Blocked(_) => 40,
        }
    }

    /// The field that the refusal names, where it names one.
    pub fn field(&self) -> Option<u8> {
        match self {
            TickFault::Measured(field) => Some(*field),
            _ => None,
        }
    }

    /// The claim that the refusal names, where it names one.
    pub fn claim(&self) -> Option<Claim> {
        match self {
            TickFault::Blocked(claim) => Some(*claim),
            _ => None,
        }
    }
}

/// A refused tick: why, and what the drive is to do.
#[derive(Clone, Copy, Debug, PartialEq, Eq)]
pub struct TickRefusal {
    pub fault: TickFault,
    pub order: Order,
}

impl TickRefusal {
    pub fn number(&self) -> u8 {
        self.fault.number()
    }
}

/// Why a release is refused.
#[derive(Clone, Copy, Debug, PartialEq, Eq)]
pub enum ReleaseFault {
    NotTripped,
    /// The first field of the measurement out of its range, 1 to 3.
    Measured(u8),
    Moving,
}

impl ReleaseFault {
    pub fn number(&self) -> u8 {
        match self {
            ReleaseFault::NotTripped => 41,
            ReleaseFault::Measured(_) => 32,
            ReleaseFault::Moving => 42,
        }
    }

    /// The field that the refusal names, where it names one.
    pub fn field(&self) -> Option<u8> {
        match self {
            ReleaseFault::Measured(field) => Some(*field),
            ReleaseFault::NotTripped | ReleaseFault::Moving => None,
        }
    }
}

/// The first field of a measurement out of its range: x, y, speed.
pub fn bad_field(measured: &Measurement) -> Option<u8> {
    let places = -GREATEST_MEASURED_PLACE..=GREATEST_MEASURED_PLACE;
    if !places.contains(&measured.x) {
        return Some(1);
    }
    if !places.contains(&measured.y) {
        return Some(2);
    }
    if !(0..=GREATEST_MEASURED_SPEED).contains(&measured.speed) {
        return Some(3);
    }
    None
}

/// The checks 32 to 40 of a tick at an open gate: a ticket, or the first fault.
pub fn checked(
    plate: &Plate,
    measured: &Measurement,
    proposal: &Proposal,
    claims: &[Claim],
) -> Result<Ticket, TickFault> {
    if let Some(field) = bad_field(measured) {
        return Err(TickFault::Measured(field));
    }
    if !acceleration_is_allowed(plate, proposal.acceleration) {
        return Err(TickFault::Acceleration);
    }
    if !radius_is_allowed(proposal.curve) {
        return Err(TickFault::Radius);
    }
    let sum = run_out(plate, measured.speed, proposal.acceleration)
        .expect("speed and acceleration have been checked");
    if sum.peak > i128::from(plate.top_speed()) {
        return Err(TickFault::TopSpeed);
    }
    if turn_limit_of(plate, proposal.curve).is_some_and(|limit| sum.peak > limit) {
        return Err(TickFault::TurnLimit);
    }
    let reach = reach_of(plate, measured, &sum);
    // A cart that does not move at all may stand where something is.
    if sum.time >= 1 {
        if let Some(claim) = first_blocking(claims, &reach) {
            return Err(TickFault::Blocked(claim));
        }
    }
    Ok(Ticket { acceleration: proposal.acceleration, reach })
}

fn radius_is_allowed(curve: Curve) -> bool {
    match curve {
        Curve::Straight => true,
        // The size is unsigned, as that of the least signed number does not
        // fit a signed one.
        Curve::Arc(radius) => radius != 0 && radius.unsigned_abs() <= GREATEST_RADIUS,
    }
}

/// The highest speed on a curve: turn limit × the radius's size. As mrad per s
/// times mm is nm per ms, there is no factor.
pub fn turn_limit_of(plate: &Plate, curve: Curve) -> Option<i128> {
    match curve {
        Curve::Straight => None,
        Curve::Arc(radius) => {
            Some(i128::from(plate.turn_limit()) * i128::from(radius.unsigned_abs()))
        }
    }
}

/// The box in which the cart may be until its run-out ends.
fn reach_of(plate: &Plate, measured: &Measurement, sum: &RunOut) -> Reach {
    let s = i128::from(plate.half_side()) + i128::from(plate.place_error()) + sum.travel;
    let edge = |e: i128| i64::try_from(e).expect("an edge of a reach fits 64 bits");
    let side =
        |place: i64| Span { low: edge(i128::from(place) - s), high: edge(i128::from(place) + s) };
    Reach { x: side(measured.x), y: side(measured.y), time: sum.time }
}

/// The gate. It can be copied here so that a test can try a tick and go back.
#[derive(Clone, Debug, PartialEq, Eq)]
pub struct Gate {
    plate: Plate,
    curve: Curve,
    ticket: Option<Ticket>,
    state: State,
}

impl Gate {
    /// A fresh gate.
    pub fn new(plate: Plate) -> Gate {
        Gate { plate, curve: Curve::Straight, ticket: None, state: State::Open }
    }

    pub fn plate(&self) -> &Plate {
        &self.plate
    }

    /// The curve in force.
    pub fn curve(&self) -> Curve {
        self.curve
    }

    /// The standing ticket.
    pub fn ticket(&self) -> Option<Ticket> {
        self.ticket
    }

    pub fn state(&self) -> State {
        self.state
    }

    /// The order of a refused tick.
    pub fn brake_order(&self) -> Order {
        Order { acceleration: -self.plate.brake(), curve: self.curve }
    }

    /// What a tick would come to, with no change to the gate.
    pub fn would_tick(
        &self,
        measured: &Measurement,
        proposal: &Proposal,
        claims: &[Claim],
    ) -> Result<Ticket, TickFault> {
        match self.state {
            State::Tripped(_) => Err(TickFault::Tripped),
            State::Open => checked(&self.plate, measured, proposal, claims),
        }
    }

    /// A tick with the list of claims that the surroundings mean.
    pub fn tick(
        &mut self,
        measured: &Measurement,
        proposal: &Proposal,
        claims: &[Claim],
    ) -> Result<Order, TickRefusal> {
        match self.would_tick(measured, proposal, claims) {
            Ok(ticket) => {
                self.curve = proposal.curve;
                self.ticket = Some(ticket);
                Ok(*proposal)
            }
            Err(fault) => {
                if let TickFault::Measured(field) = fault {
                    self.state = State::Tripped(field);
                }
                Err(TickRefusal { fault, order: self.brake_order() })
            }
        }
    }

    /// Opens a tripped gate; curve and ticket stand.
    pub fn release(&mut self, measured: &Measurement) -> Result<(), ReleaseFault> {
        if self.state == State::Open {
            return Err(ReleaseFault::NotTripped);
        }
        if let Some(field) = bad_field(measured) {
            return Err(ReleaseFault::Measured(field));
        }
        if measured.speed > self.plate.speed_error() {
            return Err(ReleaseFault::Moving);
        }
        self.state = State::Open;
        Ok(())
    }
}

#[cfg(test)]
mod tests {
    use super::*;
    use crate::claims::{worked_fixture, worked_mover, worked_reach, Fixture, Kind};
    use crate::plate::{exact_plate, sample_plate, SAMPLE};
    use crate::surroundings::Surroundings;

    const STRAIGHT: Curve = Curve::Straight;

    fn at_rest() -> Measurement {
        Measurement { x: 0, y: 0, speed: 0 }
    }

    fn moving(speed: i64) -> Measurement {
        Measurement { x: 0, y: 0, speed }
    }

    fn proposal(acceleration: i64, curve: Curve) -> Proposal {
        Proposal { acceleration, curve }
    }

    /// The number of the refusal at a fresh gate with nothing around, or 0.
    fn number(measured: Measurement, acceleration: i64, curve: Curve) -> u8 {
        tick_number(sample_plate(), measured, proposal(acceleration, curve), &[])
    }

    fn tick_number(plate: Plate, m: Measurement, p: Proposal, claims: &[Claim]) -> u8 {
        match Gate::new(plate).tick(&m, &p, claims) {
            Ok(order) => {
                assert_eq!(order, p);
                0
            }
            Err(refusal) => {
                assert_eq!(refusal.order, proposal(-plate.brake(), STRAIGHT));
                refusal.number()
            }
        }
    }

    #[test]
    fn a_fresh_gate() {
        let gate = Gate::new(sample_plate());
        assert_eq!(*gate.plate(), sample_plate());
        assert_eq!((gate.curve(), gate.ticket(), gate.state()), (STRAIGHT, None, State::Open));
    }

    #[test]
    fn worked_ticks_with_something_around() {
        let fixtures = |low_x| Surroundings::fixtures(&[worked_fixture(low_x)]).unwrap();
        let movers = |age| Surroundings::movers(&[worked_mover(age)]).unwrap();
        let rows = [
            (Surroundings::nothing(), 0),
            (fixtures(1_020_500_001), 0),
            (fixtures(1_020_500_000), 40),
            (movers(158), 0),
            (movers(159), 40),
        ];
        let p = proposal(-200, STRAIGHT);
        for (around, wanted) in rows {
            let answer = tick_number(sample_plate(), moving(990_000), p, &around.claims());
            assert_eq!(answer, wanted);
        }
    }

    #[test]
    fn worked_ticks_with_nothing_around() {
        assert_eq!(number(moving(1_990_000), -200, STRAIGHT), 0);
        assert_eq!(number(moving(1_990_000), -199, STRAIGHT), 38);
        assert_eq!(number(moving(990_000), -200, Curve::Arc(-2_000)), 0);
        assert_eq!(number(moving(990_000), -200, Curve::Arc(1_999)), 39);
    }

    #[test]
    fn worked_ticks_of_a_cart_at_rest() {
        let side = Span { low: -1, high: 1 };
        let over = Surroundings::fixtures(&[Fixture { label: 9, x: side, y: side }]).unwrap();
        let claims = over.claims();
        let plate = exact_plate();
        assert_eq!(tick_number(plate, at_rest(), proposal(0, STRAIGHT), &claims), 0);
        assert_eq!(tick_number(plate, at_rest(), proposal(1, STRAIGHT), &claims), 40);
    }

    #[test]
    fn places_at_their_limits() {
        let limit = GREATEST_MEASURED_PLACE;
        for good in [-limit, limit] {
            let measured = Measurement { x: good, y: -good, speed: 0 };
            assert_eq!(number(measured, 0, STRAIGHT), 0);
        }
        for bad in [-limit - 1, limit + 1, i64::MIN, i64::MAX] {
            let on_x = Measurement { x: bad, y: bad, speed: -1 };
            let on_y = Measurement { x: 0, y: bad, speed: -1 };
            for (measured, field) in [(on_x, 1), (on_y, 2)] {
                let mut gate = Gate::new(sample_plate());
                let refusal = gate.tick(&measured, &proposal(0, STRAIGHT), &[]).unwrap_err();
                assert_eq!(refusal.fault, TickFault::Measured(field));
                assert_eq!((refusal.number(), refusal.fault.field()), (32, Some(field)));
                assert_eq!(gate.state(), State::Tripped(field));
            }
        }
    }

    #[test]
    fn speeds_at_their_limits() {
        assert_eq!(bad_field(&moving(0)), None);
        assert_eq!(bad_field(&moving(10_000_000)), None);
        // In its range, but then too fast for the plate.
        assert_eq!(number(moving(10_000_000), -1_200, STRAIGHT), 38);
        for bad in [-1, 10_000_001, i64::MIN, i64::MAX] {
            assert_eq!(bad_field(&moving(bad)), Some(3));
            assert_eq!(number(moving(bad), 801, Curve::Arc(0)), 32);
        }
    }

    #[test]
    fn accelerations_at_their_limits() {
        assert_eq!(number(at_rest(), -1_200, STRAIGHT), 0);
        assert_eq!(number(at_rest(), 800, STRAIGHT), 0);
        for bad in [-1_201, 801, i64::MIN, i64::MAX] {
            // 33 comes before 34.
            assert_eq!(number(at_rest(), bad, Curve::Arc(0)), 33);
        }
    }

    #[test]
    fn radii_at_their_limits() {
        for good in [-1_000_000, 1_000_000] {
            assert_eq!(number(at_rest(), 0, Curve::Arc(good)), 0);
        }
        for bad in [0, -1_000_001, 1_000_001, i64::MIN, i64::MAX] {
            // 34 comes before 38.
            assert_eq!(number(moving(10_000_000), 0, Curve::Arc(bad)), 34);
        }
    }

    #[test]
    fn turn_limit_at_its_limit() {
        // Peak 30,000 against 500 × 60, then 500 × 59; and 38 before 39.
        assert_eq!(number(at_rest(), 0, Curve::Arc(60)), 0);
        assert_eq!(number(at_rest(), 0, Curve::Arc(-60)), 0);
        assert_eq!(number(at_rest(), 0, Curve::Arc(59)), 39);
        assert_eq!(number(at_rest(), 1, Curve::Arc(60)), 39);
        assert_eq!(number(moving(1_990_000), -199, Curve::Arc(1)), 38);
    }

    #[test]
    fn thirty_nine_comes_before_forty() {
        let fixture = Surroundings::fixtures(&[Fixture::AT_ZERO]).unwrap();
        let p = proposal(0, Curve::Arc(59));
        assert_eq!(tick_number(sample_plate(), at_rest(), p, &fixture.claims()), 39);
    }

    #[test]
    fn time_of_one_ms_asks_the_surroundings() {
        // Hold 1, brake 1,200: from rest by 1 the cart moves in ms 0 and 1;
        // from speed 1 by −1 only in ms 0, and the time is 1.
        let mut numbers = SAMPLE;
        numbers[2] = 0;
        numbers[3] = 1;
        numbers[4] = 0;
        let plate = Plate::new(numbers).unwrap();
        assert_eq!(run_out(&plate, 1, -1).unwrap().time, 1);
        let claims = [worked_fixture(0).claim()];
        assert_eq!(tick_number(plate, moving(1), proposal(-1, STRAIGHT), &claims), 40);
        assert_eq!(tick_number(plate, moving(0), proposal(0, STRAIGHT), &claims), 0);
    }

    #[test]
    fn an_accepted_tick_leaves_curve_and_ticket() {
        let mut gate = Gate::new(sample_plate());
        let p = proposal(-200, Curve::Arc(-2_000));
        assert_eq!(gate.tick(&moving(990_000), &p, &[]), Ok(p));
        let ticket = Ticket { acceleration: -200, reach: worked_reach() };
        assert_eq!(gate.ticket(), Some(ticket));
        assert_eq!((gate.curve(), gate.state()), (Curve::Arc(-2_000), State::Open));
    }

    #[test]
    fn a_refused_tick_leaves_the_gate_and_brakes_on_its_curve() {
        let mut gate = Gate::new(sample_plate());
        gate.tick(&moving(990_000), &proposal(-200, Curve::Arc(-2_000)), &[]).unwrap();
        let before = gate.clone();
        let claim = worked_fixture(0).claim();
        let refusals = [
            (proposal(801, STRAIGHT), TickFault::Acceleration),
            (proposal(0, Curve::Arc(0)), TickFault::Radius),
            (proposal(-200, Curve::Arc(1_999)), TickFault::TurnLimit),
            (proposal(-200, STRAIGHT), TickFault::Blocked(claim)),
        ];
        for (p, fault) in refusals {
            let refusal = gate.tick(&moving(990_000), &p, &[claim]).unwrap_err();
            assert_eq!(refusal.fault, fault);
            assert_eq!(refusal.order, proposal(-1_200, Curve::Arc(-2_000)));
            assert_eq!(gate, before);
        }
    }

    #[test]
    fn forty_names_the_first_claim_that_blocks() {
        let claims = [1_020_500_001, 1_000_000_000, 0].map(|low| worked_fixture(low).claim());
        let mut gate = Gate::new(sample_plate());
        let refusal = gate.tick(&moving(990_000), &proposal(-200, STRAIGHT), &claims).unwrap_err();
        assert_eq!(refusal.fault.claim(), Some(claims[1]));
    }

    #[test]
    fn a_tripped_gate_refuses_every_tick() {
        let mut gate = Gate::new(sample_plate());
        gate.tick(&at_rest(), &proposal(0, Curve::Arc(5_000)), &[]).unwrap();
        let ticket = gate.ticket();
        gate.tick(&moving(-1), &proposal(0, STRAIGHT), &[]).unwrap_err();
        assert_eq!(gate.state(), State::Tripped(3));
        // Even a tick with another bad field: the gate stays tripped by 3.
        for measured in [at_rest(), Measurement { x: i64::MAX, y: 0, speed: 0 }] {
            let refusal = gate.tick(&measured, &proposal(0, STRAIGHT), &[]).unwrap_err();
            assert_eq!(refusal.number(), 31);
            assert_eq!(refusal.order, proposal(-1_200, Curve::Arc(5_000)));
        }
        assert_eq!((gate.state(), gate.ticket()), (State::Tripped(3), ticket));
        assert_eq!(gate.curve(), Curve::Arc(5_000));
    }

    #[test]
    fn releases_in_their_order() {
        let mut gate = Gate::new(sample_plate());
        let bad = Measurement { x: 0, y: i64::MIN, speed: -1 };
        assert_eq!(gate.release(&bad).unwrap_err().number(), 41);
        gate.tick(&moving(10_000_001), &proposal(0, STRAIGHT), &[]).unwrap_err();
        let tripped = gate.clone();
        let fault = gate.release(&bad).unwrap_err();
        assert_eq!((fault.number(), fault.field()), (32, Some(2)));
        let fault = gate.release(&moving(10_001)).unwrap_err();
        assert_eq!((fault.number(), fault.field()), (42, None));
        assert_eq!(gate.release(&moving(10_000_001)).unwrap_err().number(), 32);
        assert_eq!(gate, tripped);
        assert_eq!(gate.release(&moving(10_000)), Ok(()));
        assert_eq!(gate, Gate::new(sample_plate()));
    }

    #[test]
    fn a_release_leaves_curve_and_ticket() {
        let mut gate = Gate::new(sample_plate());
        gate.tick(&at_rest(), &proposal(0, Curve::Arc(5_000)), &[]).unwrap();
        let open = gate.clone();
        gate.tick(&moving(-1), &proposal(0, STRAIGHT), &[]).unwrap_err();
        gate.release(&at_rest()).unwrap();
        assert_eq!(gate, open);
    }
}
