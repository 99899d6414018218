//! 01, "Fractions".

use second::fraction::Fraction;

fn fraction(num: u128, den: u128) -> Fraction {
    Fraction::new(num, den).unwrap()
}

fn parts(value: Fraction) -> (u128, u128) {
    (value.num(), value.den())
}

#[test]
fn lowest_terms() {
    assert_eq!(parts(fraction(50, 100)), (1, 2));
    assert_eq!(parts(fraction(7, 7)), (1, 1));
    assert_eq!(
        parts(fraction(1_048_576, 1_048_575)),
        (1_048_576, 1_048_575)
    );
}

#[test]
fn zero_is_nought_over_one() {
    assert_eq!(parts(Fraction::ZERO), (0, 1));
    assert_eq!(fraction(0, 17), Fraction::ZERO);
}

#[test]
fn no_denominator_of_zero() {
    assert_eq!(Fraction::new(1, 0), None);
    assert_eq!(Fraction::new(0, 0), None);
}

// 10/3 and 3 have the same whole part, so comparing after a division would call them equal.
#[test]
fn compared_exactly() {
    assert!(fraction(10, 3) > Fraction::whole(3));
    assert!(fraction(1, 1_048_576) < fraction(1, 1_048_575));
    assert!(fraction(2, 6) == fraction(1, 3));
    assert!(Fraction::ZERO < fraction(1, 1_048_576));
}

// 1/6 + 1/3 = 1/2; 3 times 10/3 = 10.
#[test]
fn sums() {
    assert_eq!(fraction(1, 6).plus(fraction(1, 3)), fraction(1, 2));
    let third = fraction(10, 3);
    assert_eq!(third.plus(third).plus(third), Fraction::whole(10));
    assert_eq!(third.plus(Fraction::ZERO), third);
}

// P6 of document 01: (20 - 10/3) / 1 = 50/3.
#[test]
fn shares_of_what_is_left() {
    let share = Fraction::share(20, fraction(10, 3), 1);
    assert_eq!(share, Some(fraction(50, 3)));
    assert_eq!(Fraction::share(10, Fraction::ZERO, 4), Some(fraction(5, 2)));
    assert_eq!(
        Fraction::share(10, Fraction::whole(10), 3),
        Some(Fraction::ZERO)
    );
}

#[test]
fn no_share_for_nobody_or_of_less_than_nothing() {
    assert_eq!(Fraction::share(10, Fraction::ZERO, 0), None);
    assert_eq!(Fraction::share(10, fraction(31, 3), 1), None);
}
