//! The run-out: the worst journey that a proposal allows (RULES.md).
//!
//! It is summed millisecond by millisecond, from its definition. There is no
//! closed formula here, so that formulas can be compared with it.

use crate::plate::Plate;

/// The highest speed that a measurement may have.
pub const GREATEST_MEASURED_SPEED: i64 = 10_000_000;

/// Why there is no run-out.
#[derive(Clone, Copy, Debug, PartialEq, Eq)]
pub enum RunOutFault {
    Speed,
    Acceleration,
}

impl RunOutFault {
    pub fn number(&self) -> u8 {
        match self {
            RunOutFault::Speed => 32,
            RunOutFault::Acceleration => 33,
        }
    }

    /// Speed is the third field of a measurement, after x and y.
    pub fn field(&self) -> Option<u8> {
        match self {
            RunOutFault::Speed => Some(3),
            RunOutFault::Acceleration => None,
        }
    }
}

#[derive(Clone, Copy, Debug, PartialEq, Eq)]
pub struct RunOut {
    /// The sum over all ms of the larger of the speeds at its two ends.
    pub travel: i128,
    /// The least ms from which every speed is 0.
    pub time: u32,
    /// The largest speed.
    pub peak: i128,
}

/// Whether an acceleration may be proposed: from −brake to pull.
pub fn acceleration_is_allowed(plate: &Plate, acceleration: i64) -> bool {
    acceleration >= -plate.brake() && acceleration <= plate.pull()
}

/// The run-out of a measured speed and a proposed acceleration.
pub fn run_out(plate: &Plate, measured: i64, acceleration: i64) -> Result<RunOut, RunOutFault> {
    if !(0..=GREATEST_MEASURED_SPEED).contains(&measured) {
        return Err(RunOutFault::Speed);
    }
    if !acceleration_is_allowed(plate, acceleration) {
        return Err(RunOutFault::Acceleration);
    }
    let mut sum = RunOut { travel: 0, time: 0, peak: 0 };
    let mut ms: u32 = 0;
    let mut speed = i128::from(measured) + i128::from(plate.speed_error());
    // Inside the hold a cart at rest may start again; under the brake it may
    // not. So all is still from the first ms after the hold with speed 0.
    while in_hold(plate, ms) || speed > 0 {
        let next = next_speed(plate, acceleration, ms, speed);
        sum.travel += speed.max(next);
        sum.peak = sum.peak.max(speed);
        if speed > 0 {
            sum.time = ms + 1;
        }
        speed = next;
        ms += 1;
    }
    Ok(sum)
}

fn in_hold(plate: &Plate, ms: u32) -> bool {
    i64::from(ms) < plate.hold()
}

/// e(i + 1) from e(i): the drive as strong and the brake as weak as the
/// plate's errors permit.
fn next_speed(plate: &Plate, acceleration: i64, ms: u32, speed: i128) -> i128 {
    let change = if in_hold(plate, ms) {
        i128::from(acceleration) + i128::from(plate.drive_error())
    } else {
        -i128::from(plate.real_braking())
    };
    (speed + change).max(0)
}

#[cfg(test)]
mod tests {
    use super::*;
    use crate::plate::{exact_plate, sample_plate, FIELDS, SAMPLE};

    fn numbers(plate: &Plate, measured: i64, acceleration: i64) -> (i128, u32, i128) {
        let sum = run_out(plate, measured, acceleration).expect("there is a run-out");
        (sum.travel, sum.time, sum.peak)
    }

    #[test]
    fn worked_sums_on_the_sample_plate() {
        let plate = sample_plate();
        let rows = [
            (990_000, -200, 600_500_000, 1_100, 1_000_000),
            (990_000, 600, 687_780_000, 1_180, 1_080_000),
            (30_000, -1_200, 820_000, 40, 40_000),
            (30_500, -1_200, 840_500, 41, 40_500),
            (30_000, -1_000, 1_020_000, 50, 40_000),
        ];
        for (measured, acceleration, travel, time, peak) in rows {
            assert_eq!(numbers(&plate, measured, acceleration), (travel, time, peak));
        }
    }

    #[test]
    fn worked_sums_without_errors() {
        let plate = exact_plate();
        assert_eq!(numbers(&plate, 0, 0), (0, 0, 0));
        assert_eq!(numbers(&plate, 0, 1), (5_150, 101, 100));
    }

    #[test]
    fn speed_at_its_limits() {
        let plate = sample_plate();
        assert!(run_out(&plate, 0, 0).is_ok());
        assert!(run_out(&plate, 10_000_000, 0).is_ok());
        for bad in [-1, 10_000_001, i64::MIN, i64::MAX] {
            let fault = run_out(&plate, bad, 0).unwrap_err();
            assert_eq!((fault.number(), fault.field()), (32, Some(3)));
        }
    }

    #[test]
    fn acceleration_at_its_limits() {
        let plate = sample_plate();
        assert!(run_out(&plate, 0, -1_200).is_ok());
        assert!(run_out(&plate, 0, 800).is_ok());
        for bad in [-1_201, 801, i64::MIN, i64::MAX] {
            let fault = run_out(&plate, 0, bad).unwrap_err();
            assert_eq!((fault.number(), fault.field()), (33, None));
        }
    }

    #[test]
    fn speed_is_checked_before_acceleration() {
        let plate = sample_plate();
        assert_eq!(run_out(&plate, -1, 801).unwrap_err(), RunOutFault::Speed);
    }

    /// Speed 0 at ms 0 is not rest if the drive's error alone starts the cart:
    /// the time is the least ms from which *every* speed is 0.
    #[test]
    fn a_cart_that_starts_from_rest_has_a_time() {
        let mut fields = SAMPLE;
        fields[4] = 0;
        let plate = Plate::new(fields).unwrap();
        // No speed, but the drive error alone gives 200 nm per ms per ms.
        assert_eq!(numbers(&plate, 0, 0), (1_220_000, 120, 20_000));
        assert_eq!(numbers(&plate, 0, -200), (0, 0, 0));
        assert_eq!(numbers(&plate, 0, -199), (5_150, 101, 100));
    }

    /// `even` of RULES.md.
    fn even(n: i128, first: i128, last: i128) -> i128 {
        n * (first + last) / 2
    }

    /// A stop from w by r in each ms, of RULES.md.
    fn stop(w: i128, r: i128) -> (i128, i128, i128) {
        let travel = even(w / r, w % r + r, w) + w % r;
        (travel, (w + r - 1) / r, w)
    }

    /// The closed formulas of RULES.md, here only to check the document.
    fn by_formula(plate: &Plate, measured: i64, acceleration: i64) -> (i128, i128, i128) {
        let v = i128::from(measured + plate.speed_error());
        let g = i128::from(acceleration + plate.drive_error());
        let (b, h) = (i128::from(plate.real_braking()), i128::from(plate.hold()));
        let w = v + h * g;
        if g < 0 && w <= 0 {
            return stop(v, -g);
        }
        if w == 0 {
            return (0, 0, 0);
        }
        let (travel, time, _) = stop(w, b);
        if g < 0 {
            (even(h, w - g, v) + travel, h + time, v)
        } else {
            (even(h, v + g, w) + travel, h + time, w)
        }
    }

    #[test]
    fn the_closed_formulas_of_the_rules_agree() {
        let mut small = SAMPLE;
        small[3] = 7;
        small[4] = 3;
        let plates = [sample_plate(), exact_plate(), Plate::new(small).unwrap()];
        for plate in plates {
            for measured in [0, 1, 2, 999, 1_000, 1_001, 6_997, 30_000, 119_999, 120_000] {
                for acceleration in (-1_200..=800).step_by(50).chain([-201, -200, -199, -1, 1]) {
                    let (travel, time, peak) = numbers(&plate, measured, acceleration);
                    let formula = by_formula(&plate, measured, acceleration);
                    assert_eq!((travel, i128::from(time), peak), formula);
                }
            }
        }
    }

    #[test]
    fn the_largest_run_out_keeps_the_bounds_of_the_rules() {
        let mut fields = FIELDS.map(|(_, _, greatest)| greatest);
        fields[4] = 1_000_000;
        let plate = Plate::new(fields).unwrap();
        let sum = run_out(&plate, GREATEST_MEASURED_SPEED, plate.pull()).unwrap();
        assert_eq!(sum.peak, 25_975_000);
        assert_eq!(sum.time, 500 + 519_500);
        assert!(sum.travel < 1 << 53 && sum.time < 1 << 26 && sum.peak < 1 << 25);
    }
}
