//! The check sum of the recorded answers.

/// Adler-32: a = 1, b = 0; for each byte a = (a + byte) mod 65521 and
/// b = (b + a) mod 65521; the sum is b in the upper and a in the lower half.
pub fn adler(bytes: &[u8]) -> u32 {
    const MODULUS: u32 = 65_521;
    let (mut a, mut b) = (1, 0);
    // 5,552 bytes are the most that cannot overflow before the remainders.
    for chunk in bytes.chunks(5_552) {
        for &byte in chunk {
            a += u32::from(byte);
            b += a;
        }
        a %= MODULUS;
        b %= MODULUS;
    }
    b << 16 | a
}
