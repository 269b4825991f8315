//! The test suite of RFC 1321, A.5.

use reading::md5::md5;

const SUITE: [(&str, u128); 7] = [
    ("", 0xd41d8cd98f00b204e9800998ecf8427e),
    ("a", 0x0cc175b9c0f1b6a831c399e269772661),
    ("abc", 0x900150983cd24fb0d6963f7d28e17f72),
    ("message digest", 0xf96b697d7cb7938d525a2f31aaf161d0),
    ("abcdefghijklmnopqrstuvwxyz", 0xc3fcd3d76192e4007dfb496cca67e13b),
    (
        "ABCDEFGHIJKLMNOPQRSTUVWXYZabcdefghijklmnopqrstuvwxyz0123456789",
        0xd174ab98d277d9f5a5611c2c9f419d9f,
    ),
    (
        "12345678901234567890123456789012345678901234567890123456789012345678901234567890",
        0x57edf4a22be3c955ac49da2e2107b67a,
    ),
];

#[test]
fn the_suite_of_the_rfc() {
    for (message, digest) in SUITE {
        assert_eq!(md5(message.as_bytes()), digest.to_be_bytes(), "{message:?}");
    }
}
