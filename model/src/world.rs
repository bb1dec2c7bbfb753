//! The world of cart, drive and things, and what is sure in it (WORLD.md).
//!
//! What happens in a ms is a choice of the world: this file says which choices
//! are allowed, and which allowed one is the worst for the cart.

use crate::claims::{Claim, WideSpan};
use crate::gate::{checked, turn_limit_of, Curve, Gate, Measurement, Order, Proposal};
use crate::gate::{ReleaseFault, TickRefusal};
use crate::plate::Plate;

/// A place, or a change of place, on both axes.
#[derive(Clone, Copy, Debug, PartialEq, Eq)]
pub struct Place {
    pub x: i128,
    pub y: i128,
}

/// The truth about a cart, and its drive.
#[derive(Clone, Copy, Debug, PartialEq, Eq)]
pub struct Cart {
    pub place: Place,
    pub speed: i128,
    /// The acceleration that the drive was last told.
    pub order: i64,
    /// For how many ms the order is still held.
    pub count: i64,
}

/// What the world chooses in one ms.
#[derive(Clone, Copy, Debug, PartialEq, Eq)]
pub struct Choice {
    pub new_speed: i128,
    pub change: Place,
}

impl Cart {
    /// A fresh cart, parked anywhere.
    pub fn parked(plate: &Plate, place: Place) -> Cart {
        Cart { place, speed: 0, order: -plate.brake(), count: 0 }
    }

    /// The order that the drive uses in the next ms.
    pub fn order_in_use(&self, plate: &Plate) -> i64 {
        if self.count > 0 {
            self.order
        } else {
            -plate.brake()
        }
    }

    /// The highest speed that the next ms may end with.
    pub fn greatest_new_speed(&self, plate: &Plate) -> i128 {
        let order = i128::from(self.order_in_use(plate));
        (self.speed + order + i128::from(plate.drive_error())).max(0)
    }

    /// Whether the next ms may be as chosen.
    pub fn allows(&self, plate: &Plate, choice: &Choice) -> bool {
        let most = self.speed.max(choice.new_speed);
        let changes = WideSpan::around(0, most);
        choice.new_speed >= 0
            && choice.new_speed <= self.greatest_new_speed(plate)
            && changes.contains(choice.change.x)
            && changes.contains(choice.change.y)
    }

    /// The allowed choice that is worst if there is something at the target:
    /// the highest speed, and as near to the target as can be.
    pub fn worst_towards(&self, plate: &Plate, target: Place) -> Choice {
        let new_speed = self.greatest_new_speed(plate);
        let most = self.speed.max(new_speed);
        let change = |from: i128, to: i128| (to - from).clamp(-most, most);
        let x = change(self.place.x, target.x);
        let y = change(self.place.y, target.y);
        Choice { new_speed, change: Place { x, y } }
    }

    /// Whether the cart moves in a ms with this choice.
    pub fn moves(&self, choice: &Choice) -> bool {
        self.speed > 0 || choice.new_speed > 0
    }

    /// The cart after one ms, if the choice is allowed.
    pub fn after(&self, plate: &Plate, choice: &Choice) -> Option<Cart> {
        if !self.allows(plate, choice) {
            return None;
        }
        let place = Place { x: self.place.x + choice.change.x, y: self.place.y + choice.change.y };
        let count = (self.count - 1).max(0);
        Some(Cart { place, speed: choice.new_speed, order: self.order, count })
    }

    /// Whether a measurement is within the plate's errors of the truth.
    pub fn is_measured_by(&self, plate: &Plate, measured: &Measurement) -> bool {
        let near = |true_one: i128, measured: i64, error: i64| {
            WideSpan::around(i128::from(measured), i128::from(error)).contains(true_one)
        };
        near(self.place.x, measured.x, plate.place_error())
            && near(self.place.y, measured.y, plate.place_error())
            && near(self.speed, measured.speed, plate.speed_error())
    }

    /// The measurement within the errors that flatters most: as slow and as far
    /// from the target as the sensors may say. It needs a place that fits 64
    /// bits with room for the error.
    pub fn flattering_measurement(&self, plate: &Plate, target: Place) -> Measurement {
        let error = i128::from(plate.place_error());
        let away = |place: i128, from: i128| {
            let measured = if from >= place { place - error } else { place + error };
            i64::try_from(measured).expect("a measured place fits 64 bits")
        };
        let speed = (self.speed - i128::from(plate.speed_error())).max(0);
        Measurement {
            x: away(self.place.x, target.x),
            y: away(self.place.y, target.y),
            speed: i64::try_from(speed).expect("a measured speed fits 64 bits"),
        }
    }

    /// The cart that most betrays a measurement: its true place as near to the
    /// target and its speed as high as the errors permit, under a held order.
    pub fn worst_start(
        plate: &Plate,
        measured: &Measurement,
        acceleration: i64,
        target: Place,
    ) -> Cart {
        let error = i128::from(plate.place_error());
        let near = |place: i64, target: i128| {
            let place = i128::from(place);
            target.clamp(place - error, place + error)
        };
        Cart {
            place: Place { x: near(measured.x, target.x), y: near(measured.y, target.y) },
            speed: i128::from(measured.speed) + i128::from(plate.speed_error()),
            order: acceleration,
            count: plate.hold(),
        }
    }

    /// The cart after a tick: what the gate answers is what the drive is told.
    pub fn told(&self, plate: &Plate, answer: &Result<Order, TickRefusal>) -> Cart {
        match answer {
            Ok(order) => Cart { order: order.acceleration, count: plate.hold(), ..*self },
            Err(_) => Cart { order: -plate.brake(), count: 0, ..*self },
        }
    }

    /// Whether the cart, in its square, touches a point.
    pub fn touches(&self, plate: &Plate, point: Place) -> bool {
        let (x, y) = self.square(plate);
        x.contains(point.x) && y.contains(point.y)
    }

    fn square(&self, plate: &Plate) -> (WideSpan, WideSpan) {
        let half_side = i128::from(plate.half_side());
        (WideSpan::around(self.place.x, half_side), WideSpan::around(self.place.y, half_side))
    }
}

/// Whether a point that is at `path[t]` at every t ms has kept a claim so far.
pub fn keeps(claim: &Claim, path: &[Place]) -> bool {
    path.iter().zip(0..).all(|(point, ms)| {
        let (x, y) = claim.sides_after(ms);
        x.contains(point.x) && y.contains(point.y)
    })
}

/// Where a point that keeps a claim is nearest to a target after some ms.
pub fn nearest_keeping(claim: &Claim, ms: u64, target: Place) -> Option<Place> {
    let (x, y) = claim.sides_after(ms);
    Some(Place { x: x.nearest(target.x)?, y: y.nearest(target.y)? })
}

/// Whether some point that has kept the claim for these ms touches the cart.
pub fn may_touch(plate: &Plate, cart: &Cart, claim: &Claim, ms: u64) -> bool {
    // A point may be anywhere in the box at each ms, however far apart. So it
    // has kept the claim if the box had a point at ms 0, and so ever since.
    let (first_x, first_y) = claim.sides_after(0);
    let (x, y) = claim.sides_after(ms);
    let (cart_x, cart_y) = cart.square(plate);
    !first_x.is_empty()
        && !first_y.is_empty()
        && !x.common(cart_x).is_empty()
        && !y.common(cart_y).is_empty()
}

/// The tick last accepted, and how many ms ago it was.
#[derive(Clone, Debug, PartialEq, Eq)]
pub struct Accepted {
    pub claims: Vec<Claim>,
    pub curve: Curve,
    pub ms: u64,
}

/// A gate, its cart, and what the law needs to know of the past.
#[derive(Clone, Debug, PartialEq, Eq)]
pub struct World {
    gate: Gate,
    cart: Cart,
    accepted: Option<Accepted>,
}

/// What a ms was like.
#[derive(Clone, Copy, Debug, PartialEq, Eq)]
pub struct Passed {
    pub moved: bool,
    /// A claim of the tick last accepted that lets something touch the cart,
    /// at the beginning and at the end of the ms.
    pub touched_before: Option<Claim>,
    pub touched_after: Option<Claim>,
}

impl Passed {
    /// The law "untouched" for this ms.
    pub fn is_untouched(&self) -> bool {
        !self.moved || (self.touched_before.is_none() && self.touched_after.is_none())
    }
}

impl World {
    /// A fresh gate, and a parked cart of its plate.
    pub fn new(plate: Plate, place: Place) -> World {
        World { gate: Gate::new(plate), cart: Cart::parked(&plate, place), accepted: None }
    }

    pub fn gate(&self) -> &Gate {
        &self.gate
    }

    pub fn cart(&self) -> &Cart {
        &self.cart
    }

    pub fn accepted(&self) -> Option<&Accepted> {
        self.accepted.as_ref()
    }

    /// A tick, if it can come: an accepted one only where its measurement is
    /// within the errors. Otherwise nothing has happened.
    pub fn tick(
        &mut self,
        measured: &Measurement,
        proposal: &Proposal,
        claims: &[Claim],
    ) -> Option<Result<Order, TickRefusal>> {
        let plate = *self.gate.plate();
        let is_accepted = self.gate.would_tick(measured, proposal, claims).is_ok();
        if is_accepted && !self.cart.is_measured_by(&plate, measured) {
            return None;
        }
        let answer = self.gate.tick(measured, proposal, claims);
        self.cart = self.cart.told(&plate, &answer);
        if is_accepted {
            let (claims, curve) = (claims.to_vec(), proposal.curve);
            self.accepted = Some(Accepted { claims, curve, ms: 0 });
        }
        Some(answer)
    }

    /// A release; it sets nothing in the cart.
    pub fn release(&mut self, measured: &Measurement) -> Result<(), ReleaseFault> {
        self.gate.release(measured)
    }

    /// One ms, if the choice is allowed. Otherwise nothing has happened.
    pub fn pass(&mut self, choice: &Choice) -> Option<Passed> {
        let next = self.cart.after(self.gate.plate(), choice)?;
        let moved = self.cart.moves(choice);
        let touched_before = self.touchable();
        self.cart = next;
        if let Some(accepted) = &mut self.accepted {
            accepted.ms += 1;
        }
        Some(Passed { moved, touched_before, touched_after: self.touchable() })
    }

    /// The first claim of the tick last accepted that lets something touch the
    /// cart now.
    pub fn touchable(&self) -> Option<Claim> {
        let accepted = self.accepted.as_ref()?;
        let plate = self.gate.plate();
        let touching = |claim: &&Claim| may_touch(plate, &self.cart, claim, accepted.ms);
        accepted.claims.iter().find(touching).copied()
    }

    /// The law "speeds" at this instant.
    pub fn keeps_speeds(&self) -> bool {
        let plate = self.gate.plate();
        let curve = self.accepted.as_ref().map_or(Curve::Straight, |tick| tick.curve);
        let within_turn = turn_limit_of(plate, curve).is_none_or(|limit| self.cart.speed <= limit);
        self.cart.speed <= i128::from(plate.top_speed()) && within_turn
    }
}

/// A possible course of things after a measurement and a proposal.
#[derive(Clone, Debug, PartialEq, Eq)]
pub struct Story {
    pub start: Cart,
    /// One for each ms.
    pub choices: Vec<Choice>,
    /// Where the point is at the beginning, and at the end of each ms.
    pub points: Vec<Place>,
}

/// Whether a story justifies that a tick is refused because of a claim: in the
/// last ms the cart moves, and at its end touches a point that keeps the claim.
pub fn justifies(
    plate: &Plate,
    measured: &Measurement,
    proposal: &Proposal,
    claim: &Claim,
    story: &Story,
) -> bool {
    let start_is_right = story.start.is_measured_by(plate, measured)
        && story.start.speed >= 0
        && story.start.order == proposal.acceleration
        && story.start.count == plate.hold();
    let times_are_right = story.points.len() == story.choices.len() + 1;
    if !start_is_right || !times_are_right || !keeps(claim, &story.points) {
        return false;
    }
    let mut cart = story.start;
    let mut moved = false;
    for choice in &story.choices {
        moved = cart.moves(choice);
        match cart.after(plate, choice) {
            Some(next) => cart = next,
            None => return false,
        }
    }
    let last = story.points[story.choices.len()];
    moved && cart.touches(plate, last)
}

/// The worst story: cart and point make for a place that both can reach. None
/// where the claim is no reason to refuse the proposal by 40.
pub fn worst_story(
    plate: &Plate,
    measured: &Measurement,
    proposal: &Proposal,
    claim: &Claim,
) -> Option<Story> {
    // With nothing around the checks give the reach, whatever the claim.
    let reach = checked(plate, measured, proposal, &[]).ok()?.reach;
    if reach.time == 0 {
        return None;
    }
    let (x, y) = claim.common(&reach);
    let target = Place { x: x.nearest(0)?, y: y.nearest(0)? };
    let start = Cart::worst_start(plate, measured, proposal.acceleration, target);
    let mut cart = start;
    let mut choices = Vec::new();
    let mut points = vec![nearest_keeping(claim, 0, target)?];
    for ms in 1..=u64::from(reach.time) {
        let choice = cart.worst_towards(plate, target);
        cart = cart.after(plate, &choice)?;
        choices.push(choice);
        points.push(nearest_keeping(claim, ms, target)?);
    }
    Some(Story { start, choices, points })
}

#[cfg(test)]
mod tests {
    use super::*;
    use crate::claims::{worked_fixture, worked_mover, Kind, Mover, Span};
    use crate::gate::{State, TickFault};
    use crate::plate::sample_plate;
    use crate::run_out::run_out;

    const ORIGIN: Place = Place { x: 0, y: 0 };

    fn place(x: i128, y: i128) -> Place {
        Place { x, y }
    }

    fn straight(acceleration: i64) -> Proposal {
        Proposal { acceleration, curve: Curve::Straight }
    }

    fn choice(new_speed: i128, x: i128, y: i128) -> Choice {
        Choice { new_speed, change: place(x, y) }
    }

    fn cart(speed: i128, order: i64, count: i64) -> Cart {
        Cart { place: ORIGIN, speed, order, count }
    }

    /// Numbers that look random and are the same in every run.
    struct Dice(u64);

    impl Dice {
        /// A number from `least` to `greatest`.
        fn roll(&mut self, least: i64, greatest: i64) -> i64 {
            let next = self.0.wrapping_mul(6_364_136_223_846_793_005);
            self.0 = next.wrapping_add(1_442_695_040_888_963_407);
            let width = (greatest - least + 1) as u64;
            least + ((self.0 >> 33) % width) as i64
        }
    }

    #[test]
    fn a_parked_cart_stays() {
        let plate = sample_plate();
        let parked = Cart::parked(&plate, place(5, -6));
        assert_eq!((parked.speed, parked.order, parked.count), (0, -1_200, 0));
        assert!(parked.allows(&plate, &choice(0, 0, 0)));
        assert!(!parked.allows(&plate, &choice(1, 0, 0)));
        assert!(!parked.allows(&plate, &choice(0, 1, 0)));
        assert!(!parked.allows(&plate, &choice(0, 0, -1)));
        assert!(!parked.moves(&choice(0, 0, 0)));
        assert_eq!(parked.after(&plate, &choice(0, 0, 0)), Some(parked));
    }

    #[test]
    fn speeds_of_a_ms_at_their_limits() {
        let plate = sample_plate();
        // A held order: v + o + drive error. Then the brake: v − 1,000.
        let rows = [
            (cart(50_000, 300, 1), 50_500),
            (cart(50_000, 300, 0), 49_000),
            (cart(999, 300, 0), 0),
            (cart(1_001, 300, 0), 1),
            (cart(500, -1_200, 3), 0),
        ];
        for (before, most) in rows {
            assert_eq!(before.greatest_new_speed(&plate), most);
            assert!(before.allows(&plate, &choice(most, 0, 0)));
            assert!(before.allows(&plate, &choice(0, 0, 0)));
            assert!(!before.allows(&plate, &choice(most + 1, 0, 0)));
            assert!(!before.allows(&plate, &choice(-1, 0, 0)));
        }
    }

    #[test]
    fn changes_of_place_at_their_limits() {
        let plate = sample_plate();
        let held = cart(50_000, 300, 1);
        // The larger of old and new speed bounds each axis by itself.
        for (new_speed, most) in [(50_500, 50_500), (50_100, 50_100), (0, 50_000)] {
            assert!(held.allows(&plate, &choice(new_speed, most, -most)));
            assert!(!held.allows(&plate, &choice(new_speed, most + 1, 0)));
            assert!(!held.allows(&plate, &choice(new_speed, 0, -most - 1)));
        }
        assert!(!held.allows(&plate, &choice(0, i128::MIN, i128::MAX)));
    }

    #[test]
    fn the_count_falls_and_the_order_stays() {
        let plate = sample_plate();
        let mut now = cart(50_000, 300, 2);
        // After the second ms the order is no longer held, and the cart brakes.
        for (new_speed, count) in [(50_500, 1), (51_000, 0), (50_000, 0)] {
            assert_eq!(now.after(&plate, &choice(new_speed + 1, 0, 0)), None);
            now = now.after(&plate, &choice(new_speed, 1, 2)).unwrap();
            assert_eq!((now.order, now.count), (300, count));
        }
        assert_eq!(now.place, place(3, 6));
        assert_eq!(now.after(&plate, &choice(0, 0, 50_001)), None);
    }

    #[test]
    fn a_cart_moves_if_it_has_a_speed_at_either_end() {
        assert!(cart(1, 0, 0).moves(&choice(0, 0, 0)));
        assert!(cart(0, 0, 0).moves(&choice(1, 0, 0)));
        assert!(!cart(0, 0, 0).moves(&choice(0, 0, 0)));
    }

    #[test]
    fn the_worst_choice_is_allowed_and_worst() {
        let plate = sample_plate();
        let held = cart(50_000, 300, 1);
        let far = held.worst_towards(&plate, place(1 << 60, -(1 << 60)));
        assert_eq!(far, choice(50_500, 50_500, -50_500));
        let near = held.worst_towards(&plate, place(7, -50_501));
        assert_eq!(near, choice(50_500, 7, -50_500));
        assert!(held.allows(&plate, &far) && held.allows(&plate, &near));
    }

    #[test]
    fn measurements_at_the_limits_of_the_errors() {
        let plate = sample_plate();
        let truth = Cart { place: place(100, 200), ..cart(20_000, 0, 0) };
        let good = Measurement { x: 20_000_100, y: -19_999_800, speed: 10_000 };
        assert!(truth.is_measured_by(&plate, &good));
        assert!(truth.is_measured_by(&plate, &Measurement { speed: 30_000, ..good }));
        assert!(!truth.is_measured_by(&plate, &Measurement { x: good.x + 1, ..good }));
        assert!(!truth.is_measured_by(&plate, &Measurement { y: good.y - 1, ..good }));
        assert!(!truth.is_measured_by(&plate, &Measurement { speed: 9_999, ..good }));
        assert!(!truth.is_measured_by(&plate, &Measurement { speed: 30_001, ..good }));
        assert_eq!(truth.flattering_measurement(&plate, place(-1_000, 1_000)), good);
    }

    #[test]
    fn an_accepted_tick_sets_order_and_count() {
        let mut world = World::new(sample_plate(), ORIGIN);
        let near = Measurement { x: 20_000_000, y: -20_000_000, speed: 10_000 };
        assert_eq!(world.tick(&near, &straight(300), &[]), Some(Ok(straight(300))));
        assert_eq!(*world.cart(), cart(0, 300, 100));
        // One beyond the error, such a tick cannot come, and nothing happens.
        let before = world.clone();
        let too_far = Measurement { x: 20_000_001, ..near };
        let too_fast = Measurement { speed: 10_001, ..near };
        for beyond in [too_far, too_fast] {
            assert_eq!(world.tick(&beyond, &straight(301), &[]), None);
            assert_eq!(world, before);
        }
    }

    #[test]
    fn a_refused_tick_sets_the_brake_whatever_was_measured() {
        let mut world = World::new(sample_plate(), ORIGIN);
        let here = Measurement { x: 0, y: 0, speed: 0 };
        world.tick(&here, &straight(300), &[]).unwrap().unwrap();
        let wild = Measurement { x: i64::MAX, y: 0, speed: 0 };
        assert_eq!(world.tick(&wild, &straight(0), &[]).unwrap().unwrap_err().number(), 32);
        assert_eq!(*world.cart(), cart(0, -1_200, 0));
        assert_eq!(world.gate().state(), State::Tripped(1));
        // A release sets nothing in the cart, refused or not.
        assert_eq!(world.release(&wild).unwrap_err().number(), 32);
        assert_eq!(world.release(&here), Ok(()));
        assert_eq!(*world.cart(), cart(0, -1_200, 0));
    }

    #[test]
    fn keeping_a_claim_at_its_limits() {
        let (x, y) = (Span { low: -5, high: 5 }, Span { low: 0, high: 0 });
        let claim = Claim { label: 1, x, y, speed: 10 };
        assert!(keeps(&claim, &[]));
        assert!(keeps(&claim, &[place(5, 0), place(-15, 10), place(25, -20)]));
        assert!(!keeps(&claim, &[place(6, 0)]));
        assert!(!keeps(&claim, &[place(0, 1)]));
        assert!(!keeps(&claim, &[place(5, 0), place(16, 0)]));
        assert!(!keeps(&claim, &[place(5, 0), place(15, 0), place(0, -21)]));
        assert_eq!(nearest_keeping(&claim, 1, place(99, -3)), Some(place(15, -3)));
    }

    #[test]
    fn touching_at_its_limits() {
        let plate = sample_plate();
        let half = i128::from(plate.half_side());
        assert!(cart(0, 0, 0).touches(&plate, place(half, -half)));
        assert!(!cart(0, 0, 0).touches(&plate, place(half + 1, 0)));
        assert!(!cart(0, 0, 0).touches(&plate, place(0, -half - 1)));
    }

    #[test]
    fn nothing_keeps_a_claim_whose_box_is_empty() {
        let plate = sample_plate();
        let x = Span { low: 5, high: 4 };
        let claim = Claim { label: 1, x, y: x, speed: 10 };
        assert!(!may_touch(&plate, &cart(0, 0, 0), &claim, 1));
        let full = Claim { x: Span { low: 4, high: 5 }, y: Span { low: 4, high: 5 }, ..claim };
        assert!(may_touch(&plate, &cart(0, 0, 0), &full, 0));
    }

    /// Lets `ms` pass, each as bad as can be, and watches the law.
    fn pass_badly(world: &mut World, ms: i64, target: Place) {
        for _ in 0..ms {
            let choice = world.cart().worst_towards(world.gate().plate(), target);
            assert!(world.keeps_speeds());
            assert!(world.pass(&choice).unwrap().is_untouched());
            assert!(world.keeps_speeds());
        }
    }

    /// A tick of the boldest proposal that the gate accepts, or a refused one.
    fn tick_boldly(world: &mut World, target: Place, claims: &[Claim]) {
        let measured = world.cart().flattering_measurement(world.gate().plate(), target);
        for acceleration in [800, 400, 0, -200, -600, -1_200] {
            let answer = world.tick(&measured, &straight(acceleration), claims);
            if answer.expect("the measurement is within the errors").is_ok() {
                return;
            }
        }
    }

    #[test]
    fn a_bold_planner_stops_before_a_fixture() {
        let fixture = worked_fixture(1_020_500_001);
        let target = place(1_100_000_000, 0);
        let mut world = World::new(sample_plate(), place(-3_000_000_000, 0));
        for _ in 0..120 {
            tick_boldly(&mut world, target, &[fixture.claim()]);
            pass_badly(&mut world, 50, target);
        }
        // It came near: its front is within place error and a little of it.
        let gap = 1_020_500_001 - 400_000_000 - world.cart().place.x;
        assert_eq!(world.cart().speed, 0);
        assert!((1..60_000_000).contains(&gap), "gap {gap}");
    }

    #[test]
    fn a_moving_cart_is_not_touched_by_a_mover_that_keeps_its_claim() {
        let mut world = World::new(sample_plate(), place(-6_000_000_000, 0));
        let mut mover = Mover { speed: 500_000, ..worked_mover(0) };
        for _ in 0..100 {
            let target = place(i128::from(mover.centre_x), 0);
            tick_boldly(&mut world, target, &[mover.claim()]);
            pass_badly(&mut world, 60, target);
            // The mover comes on at its full speed.
            mover.centre_x -= 60 * 500_000;
        }
    }

    /// A small cart in a small world, where every check is often at its limit.
    fn small_plate(dice: &mut Dice) -> Plate {
        loop {
            let numbers = [
                dice.roll(50, 120),
                dice.roll(0, 60),
                dice.roll(0, 40),
                dice.roll(1, 12),
                dice.roll(0, 30),
                dice.roll(0, 50),
                dice.roll(1, 900),
                dice.roll(1, 40),
                dice.roll(0, 300),
            ];
            if let Ok(plate) = Plate::new(numbers) {
                return plate;
            }
        }
    }

    fn some_claims(dice: &mut Dice, near: Place) -> Vec<Claim> {
        let mut side = |centre: i128| {
            let low = centre as i64 + dice.roll(-3_000, 3_000);
            Span { low, high: low + dice.roll(0, 500) }
        };
        let spans = [(side(near.x), side(near.y)), (side(near.x), side(near.y))];
        spans.map(|(x, y)| Claim { label: 1, x, y, speed: dice.roll(0, 40) as u32 }).to_vec()
    }

    fn some_proposal(dice: &mut Dice, plate: &Plate) -> Proposal {
        let acceleration = dice.roll(-plate.brake() - 1, plate.pull() + 1);
        let curve = match dice.roll(0, 2) {
            0 => Curve::Arc(dice.roll(-60, 60)),
            _ => Curve::Straight,
        };
        Proposal { acceleration, curve }
    }

    /// One tick, with the justification of 40 and what the drive is told.
    fn random_tick(dice: &mut Dice, world: &mut World) -> Option<u8> {
        let plate = *world.gate().plate();
        let here = world.cart().place;
        let claims = some_claims(dice, here);
        let target = place(i128::from(claims[0].x.low), i128::from(claims[0].y.low));
        let mut measured = world.cart().flattering_measurement(&plate, target);
        if dice.roll(0, 30) == 0 {
            measured.speed = -1;
        }
        let proposal = some_proposal(dice, &plate);
        let answer = world.tick(&measured, &proposal, &claims).unwrap();
        let order = world.cart().order;
        match answer {
            Ok(answered) => assert_eq!(order, answered.acceleration),
            Err(refusal) => assert_eq!(order, refusal.order.acceleration),
        }
        let fault = answer.err()?.fault;
        if let TickFault::Blocked(claim) = fault {
            let story = worst_story(&plate, &measured, &proposal, &claim).unwrap();
            assert!(justifies(&plate, &measured, &proposal, &claim, &story));
        }
        Some(fault.number())
    }

    /// Where the cart can do most harm: the nearest point of what it was told.
    fn harm(world: &World) -> Place {
        let here = world.cart().place;
        let claim = world.accepted().and_then(|tick| tick.claims.first());
        claim.and_then(|claim| nearest_keeping(claim, 0, here)).unwrap_or(here)
    }

    #[test]
    fn random_runs_keep_the_law() {
        let mut dice = Dice(7);
        let mut met = [0; 256];
        for _ in 0..400 {
            let mut world = World::new(small_plate(&mut dice), ORIGIN);
            for _ in 0..60 {
                let number = random_tick(&mut dice, &mut world);
                met[usize::from(number.unwrap_or(0))] += 1;
                let target = harm(&world);
                pass_badly(&mut world, dice.roll(0, 15), target);
                if dice.roll(0, 3) == 0 {
                    let here = world.cart().place;
                    let (x, y) = (here.x as i64, here.y as i64);
                    let _ = world.release(&Measurement { x, y, speed: 0 });
                }
            }
        }
        for number in [0, 31, 32, 33, 34, 38, 39, 40] {
            assert!(met[number] > 10, "too few of {number}: {}", met[number]);
        }
    }

    /// The worst world of a measurement and a proposal, to its rest: how far
    /// the cart comes on an axis, for how many ms it moves, and how fast.
    fn worst_journey(plate: &Plate, speed: i64, acceleration: i64) -> (i128, u32, i128) {
        let measured = Measurement { x: 0, y: 0, speed };
        let far = place(1 << 60, 0);
        let start = Cart::worst_start(plate, &measured, acceleration, far);
        let (mut now, mut ms, mut time, mut peak) = (start, 0, 0, start.speed);
        while now.count > 0 || now.speed > 0 {
            let choice = now.worst_towards(plate, far);
            now = now.after(plate, &choice).unwrap();
            peak = peak.max(now.speed);
            ms += 1;
            if now.speed > 0 {
                time = ms + 1;
            }
        }
        let time = if start.speed > 0 { time.max(1) } else { time };
        (now.place.x - start.place.x, time, peak)
    }

    #[test]
    fn the_worst_world_is_the_run_out() {
        let mut dice = Dice(11);
        for _ in 0..2_000 {
            let plate = small_plate(&mut dice);
            let speed = dice.roll(0, 900);
            let acceleration = dice.roll(-plate.brake(), plate.pull());
            let sum = run_out(&plate, speed, acceleration).unwrap();
            let journey = worst_journey(&plate, speed, acceleration);
            assert_eq!(journey, (sum.travel, sum.time, sum.peak));
        }
    }

    #[test]
    fn the_worked_refusals_are_justified() {
        let plate = sample_plate();
        let measured = Measurement { x: 0, y: 0, speed: 990_000 };
        let proposal = straight(-200);
        let fixture = |low_x| worked_fixture(low_x).claim();
        let mover = |age| worked_mover(age).claim();
        let other = fixture(1_020_500_001);
        for claim in [fixture(1_020_500_000), mover(159)] {
            let story = worst_story(&plate, &measured, &proposal, &claim).unwrap();
            assert!(justifies(&plate, &measured, &proposal, &claim, &story));
            // Of another claim, or of a shorter time, the story says nothing.
            assert!(!justifies(&plate, &measured, &proposal, &other, &story));
            let mut short = story.clone();
            short.choices.pop();
            short.points.pop();
            assert!(!justifies(&plate, &measured, &proposal, &claim, &short));
        }
        for claim in [fixture(1_020_500_001), mover(158)] {
            assert_eq!(worst_story(&plate, &measured, &proposal, &claim), None);
        }
    }
}
