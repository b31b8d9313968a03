//! The sum by each side: the same number.

use bench::sum;
use testing::generate::rng::Rng;

/// Rounds of eight bytes with every tail, and the lengths that are timed.
fn lengths() -> impl Iterator<Item = usize> {
    (0..=600).chain([5_190, 32_768])
}

fn assert_agreed(bytes: &[u8], what: &str) {
    let expected = sum::second(bytes);
    let length = bytes.len();
    assert_eq!(sum::proved(bytes), expected, "{length} {what}");
    assert_eq!(sum::before(bytes), expected, "{length} {what}, two a round");
    if length % 2 == 0 {
        assert_eq!(sum::fast(bytes), expected, "{length} {what}, fast");
    }
}

#[test]
fn of_random_bytes() {
    let mut rng = Rng::new(11);
    for length in lengths() {
        let bytes: Vec<u8> = (0..length).map(|_| rng.draw() as u8).collect();
        assert_agreed(&bytes, "random bytes");
    }
}

#[test]
fn of_the_greatest_bytes() {
    for length in lengths() {
        assert_agreed(&vec![255; length], "bytes 255");
    }
}

/// One byte among zeros counts with its own weight: 1 or 256.
#[test]
fn of_one_byte_among_zeros() {
    for length in (0..=40).filter(|length| length % 2 == 0) {
        for at in 0..length {
            let mut bytes = vec![0; length];
            bytes[at] = 201;
            assert_eq!(
                sum::proved(&bytes),
                201 << (8 * (at % 2)),
                "byte {at} of {length}"
            );
        }
    }
}
