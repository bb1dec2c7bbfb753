//! The plate: the nine numbers that say what one cart can do (RULES.md).

/// How many fields a plate has.
pub const FIELD_COUNT: usize = 9;

/// The least real braking (brake less drive error) that a plate may have.
pub const LEAST_REAL_BRAKING: i64 = 50;

/// Name, least and greatest value of each field, in the order of the fields.
pub const FIELDS: [(&str, i64, i64); FIELD_COUNT] = [
    ("brake", 50, 20_000),
    ("pull", 0, 10_000),
    ("drive error", 0, 19_950),
    ("hold", 1, 500),
    ("speed error", 0, 1_000_000),
    ("place error", 0, 1_000_000_000),
    ("top speed", 1, 5_000_000),
    ("turn limit", 1, 10_000),
    ("half side", 0, 5_000_000_000),
];

/// Why nine numbers make no plate.
#[derive(Clone, Copy, Debug, PartialEq, Eq)]
pub enum PlateFault {
    /// The first field out of its range, counted from 1.
    OutOfRange(u8),
    WeakBraking,
    SpeedErrorTooLarge,
}

impl PlateFault {
    pub fn number(&self) -> u8 {
        match self {
            PlateFault::OutOfRange(_) => 11,
            PlateFault::WeakBraking => 12,
            PlateFault::SpeedErrorTooLarge => 13,
        }
    }

    /// The field that the refusal names, where it names one.
    pub fn field(&self) -> Option<u8> {
        match self {
            PlateFault::OutOfRange(field) => Some(*field),
            PlateFault::WeakBraking | PlateFault::SpeedErrorTooLarge => None,
        }
    }
}

/// Nine numbers that keep every rule of a plate. Nothing but [`Plate::new`]
/// makes one, so whoever holds a plate need not check it again.
#[derive(Clone, Copy, Debug, PartialEq, Eq)]
pub struct Plate {
    numbers: [i64; FIELD_COUNT],
}

impl Plate {
    /// Checks 11, 12 and 13 in this order.
    pub fn new(numbers: [i64; FIELD_COUNT]) -> Result<Plate, PlateFault> {
        if let Some(field) = first_out_of_range(&numbers) {
            return Err(PlateFault::OutOfRange(field));
        }
        // Every field is in its range here, so no difference can overflow.
        let plate = Plate { numbers };
        if plate.real_braking() < LEAST_REAL_BRAKING {
            return Err(PlateFault::WeakBraking);
        }
        if plate.speed_error() >= plate.top_speed() {
            return Err(PlateFault::SpeedErrorTooLarge);
        }
        Ok(plate)
    }

    /// The nine fields in their order.
    pub fn numbers(&self) -> [i64; FIELD_COUNT] {
        self.numbers
    }

    pub fn brake(&self) -> i64 {
        self.numbers[0]
    }

    pub fn pull(&self) -> i64 {
        self.numbers[1]
    }

    pub fn drive_error(&self) -> i64 {
        self.numbers[2]
    }

    pub fn hold(&self) -> i64 {
        self.numbers[3]
    }

    pub fn speed_error(&self) -> i64 {
        self.numbers[4]
    }

    pub fn place_error(&self) -> i64 {
        self.numbers[5]
    }

    pub fn top_speed(&self) -> i64 {
        self.numbers[6]
    }

    pub fn turn_limit(&self) -> i64 {
        self.numbers[7]
    }

    pub fn half_side(&self) -> i64 {
        self.numbers[8]
    }

    /// What the brake is sure to do.
    pub fn real_braking(&self) -> i64 {
        self.brake() - self.drive_error()
    }
}

/// The first field out of its range, counted from 1.
fn first_out_of_range(numbers: &[i64; FIELD_COUNT]) -> Option<u8> {
    let mut field = 0;
    for (number, (_, least, greatest)) in numbers.iter().zip(FIELDS) {
        field += 1;
        if *number < least || *number > greatest {
            return Some(field);
        }
    }
    None
}

/// The sample of RULES.md, for the tests of every file.
#[cfg(test)]
pub(crate) const SAMPLE: [i64; FIELD_COUNT] =
    [1_200, 800, 200, 100, 10_000, 20_000_000, 2_000_000, 500, 400_000_000];

#[cfg(test)]
pub(crate) fn sample_plate() -> Plate {
    Plate::new(SAMPLE).expect("the sample is a plate")
}

/// The sample plate with drive error 0 and speed error 0.
#[cfg(test)]
pub(crate) fn exact_plate() -> Plate {
    let mut numbers = SAMPLE;
    numbers[2] = 0;
    numbers[4] = 0;
    Plate::new(numbers).expect("the exact sample is a plate")
}

#[cfg(test)]
mod tests {
    use super::*;

    /// Numbers that are a plate, with one field set to `value`. The others are
    /// such that a field at either end of its range breaks neither 12 nor 13.
    fn with(field: usize, value: i64) -> [i64; FIELD_COUNT] {
        let mut numbers = SAMPLE;
        numbers[field - 1] = value;
        match field {
            1 => numbers[2] = 0,
            3 => numbers[0] = 20_000,
            7 => numbers[4] = 0,
            _ => {}
        }
        numbers
    }

    #[test]
    fn the_sample_holds_its_numbers() {
        let plate = sample_plate();
        assert_eq!(plate.numbers(), SAMPLE);
        assert_eq!(plate.brake(), 1_200);
        assert_eq!(plate.pull(), 800);
        assert_eq!(plate.drive_error(), 200);
        assert_eq!(plate.hold(), 100);
        assert_eq!(plate.speed_error(), 10_000);
        assert_eq!(plate.place_error(), 20_000_000);
        assert_eq!(plate.top_speed(), 2_000_000);
        assert_eq!(plate.turn_limit(), 500);
        assert_eq!(plate.half_side(), 400_000_000);
        assert_eq!(plate.real_braking(), 1_000);
    }

    #[test]
    fn each_field_at_its_limits() {
        for field in 1..=FIELD_COUNT {
            let (_, least, greatest) = FIELDS[field - 1];
            for good in [least, greatest] {
                assert!(Plate::new(with(field, good)).is_ok(), "field {field} at {good}");
            }
            for bad in [least - 1, greatest + 1, i64::MIN, i64::MAX] {
                let fault = Plate::new(with(field, bad)).unwrap_err();
                assert_eq!(fault, PlateFault::OutOfRange(field as u8));
                assert_eq!(fault.number(), 11);
                assert_eq!(fault.field(), Some(field as u8));
            }
        }
    }

    #[test]
    fn the_first_field_out_of_range_is_named() {
        assert_eq!(Plate::new([i64::MIN; 9]).unwrap_err(), PlateFault::OutOfRange(1));
        assert_eq!(Plate::new([i64::MAX; 9]).unwrap_err(), PlateFault::OutOfRange(1));
        let mut numbers = SAMPLE;
        numbers[3] = 0;
        numbers[8] = -1;
        assert_eq!(Plate::new(numbers).unwrap_err(), PlateFault::OutOfRange(4));
    }

    #[test]
    fn real_braking_at_its_limit() {
        let mut numbers = SAMPLE;
        numbers[2] = numbers[0] - 50;
        assert!(Plate::new(numbers).is_ok());
        numbers[2] += 1;
        let fault = Plate::new(numbers).unwrap_err();
        assert_eq!(fault, PlateFault::WeakBraking);
        assert_eq!((fault.number(), fault.field()), (12, None));
    }

    #[test]
    fn speed_error_at_its_limit() {
        let mut numbers = SAMPLE;
        numbers[6] = 10_001;
        assert!(Plate::new(numbers).is_ok());
        numbers[6] = 10_000;
        let fault = Plate::new(numbers).unwrap_err();
        assert_eq!(fault, PlateFault::SpeedErrorTooLarge);
        assert_eq!((fault.number(), fault.field()), (13, None));
    }

    #[test]
    fn the_checks_come_in_their_order() {
        // Real braking 0 and speed error = top speed: 12 comes before 13.
        let mut numbers = SAMPLE;
        numbers[2] = 1_200;
        numbers[6] = 10_000;
        assert_eq!(Plate::new(numbers).unwrap_err().number(), 12);
        // The last field out of its range comes before both.
        numbers[8] = -1;
        assert_eq!(Plate::new(numbers).unwrap_err(), PlateFault::OutOfRange(9));
    }
}
