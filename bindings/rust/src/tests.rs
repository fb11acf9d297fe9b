//! Each call once, on vectors of libxcrypt, RFC 7914, RFC 4648 and Python's hashlib.

use super::*;

// libxcrypt, `crypt("", "$6$rounds=1000$x$")`, and the same with 5.
const TEXT_512: &str = concat!(
    "$6$rounds=1000$x$JUgHESfT/mKR2X.Qz/PrkEgBINN.wbH/GsJhhFRcgrb0",
    "a4MjVYFixxXtKicccBbv9PSG/n1kVdpVqZiR7Brv1."
);
const TEXT_256: &str = "$5$rounds=1000$x$kIBhdUvT3pHpfTjzR8s1XJu3y/HRJeFxMSffBtF8jx9";

// `hashlib.scrypt(b"password", salt=.., n=16, r=8, p=1, dklen=32)`.
const TEXT_SCRYPT: &str = "$scrypt$ln=4,r=8,p=1$aM15713r3Xsvxbi31lqr1Q$tRLzw8Z7aDjv6nXXg/DyMg+8Gut1P9TnqajTcpzrqmM";
const SALT: &[u8; 16] = b"\x68\xcd\x79\xef\x5d\xeb\xdd\x7b\x2f\xc5\xb8\xb7\xd6\x5a\xab\xd5";
const COST: Cost = Cost { ln: 4, r: 8, p: 1 };

// Of the password `secret`: openssl, libxcrypt and the program argon2.
const ANY: [&str; 6] = [
    "$1$abcdefgh$cHJi5PXp/ki/ktXzqlk6I1",
    "$2b$04$abcdefghijklmnopqrstuu2r9OfJnfCsdneAXAGHnS4UpFFP8WIrW",
    "$argon2id$v=19$m=64,t=1,p=1$c2FsdHNhbHRzYWx0$Sm3MnLdCFk0Af+croKgebRoqqmhbKd88iiW3yUOXn78",
    "$pbkdf2-sha256$i=1000,l=32$c2FsdHNhbHRzYWx0$sVaWem31qy3rw+Ldi3plA/XzhMSNi9/XHnnD1Ytj05o",
    "$pbkdf2-sha512$i=1000,l=64$c2FsdHNhbHRzYWx0$bePzWo/796SGZ2lBKpZcU2FQhQXnjiEADnvU8yLzaxu1BwlSR076rTWeGRrvgBz757DxNPmtAZpVls5xSi9daw",
    "$y$j75$0123456789ab$kb1fsIrDP1wOa4Q3gNpxZkfwQ3ce8kmPbnemuN65IT2",
];

#[test]
fn every_scheme() {
    for text in ANY {
        assert_eq!(check_any(b"secret", text.as_bytes(), &Limits::NONE), Answer::Match, "{text}");
        assert_eq!(check_any(b"Secret", text.as_bytes(), &Limits::NONE), Answer::Mismatch, "{text}");
    }
    let limits = Limits { argon2_memory: 63, ..Limits::NONE };
    assert_eq!(check_any(b"secret", ANY[2].as_bytes(), &limits), Answer::OverCost);
    assert_eq!(check_any(b"secret", b"$1$abcdefgh", &Limits::NONE).word(), "md5-format");
    assert_eq!(check_any(b"sec\0ret", ANY[1].as_bytes(), &Limits::NONE), Answer::ZeroByte);
}

#[test]
fn verdicts() {
    assert_eq!(check(b"", TEXT_512.as_bytes()), Answer::Match);
    assert_eq!(check(b"a", TEXT_512.as_bytes()).word(), "mismatch");
    assert_eq!(sha256_check(b"", TEXT_256.as_bytes()), Answer::Match);
    assert_eq!(sha512_check(b"", TEXT_256.as_bytes()), Answer::ShaIdentifier);
    assert_eq!(check(&[b'a'; 4_097], TEXT_256.as_bytes()), Answer::PasswordTooLong);
    assert_eq!(check_limited(b"", TEXT_512.as_bytes(), 999, 0), Answer::OverCost);
    assert_eq!(check_limited(b"", TEXT_512.as_bytes(), 1_000, 0), Answer::Match);
    assert_eq!(check_limited(b"password", TEXT_SCRYPT.as_bytes(), 0, 16_383), Answer::OverCost);
    assert_eq!(check_limited(b"password", TEXT_SCRYPT.as_bytes(), 0, 16_384), Answer::Match);
}

#[test]
fn answers() {
    for (number, answer) in ANSWERS.iter().enumerate() {
        assert_eq!(answer.number(), number as i32);
        assert!(!answer.word().is_empty());
    }
    assert_eq!(Answer::of(99), Answer::Unknown(99));
    assert_eq!(Answer::of(99).word(), "");
    assert_eq!(version(), "1.1");
}

#[test]
fn made() {
    assert_eq!(sha512_text("", b"x", 1_000).as_deref(), Ok(TEXT_512));
    assert_eq!(sha256_text("", b"x", 1_000).as_deref(), Ok(TEXT_256));
    assert_eq!(sha256_text("", b"$", 1_000), Err(Error::OutOfRange));
    assert_eq!(sha256_field(b"", b"x", 1_000).as_deref(), Ok(&TEXT_256[17..]));
    assert_eq!(sha512_field(b"", b"x", 1_000).as_deref(), Ok(&TEXT_512[17..]));
    assert_eq!(sha256_digest(b"", b"x", 1_000).map(|d| d[..4].to_vec()), Ok(b"\xb4\xb8\x45\xfe".to_vec()));
    assert_eq!(sha512_digest(b"", b"x", 1_000).map(|d| d[..4].to_vec()), Ok(b"\x4e\x90\x6c\x70".to_vec()));
    assert_eq!(sha512_digest(b"", b"x", 999), Err(Error::OutOfRange));
    assert_eq!(scrypt_text("password", SALT, COST).as_deref(), Ok(TEXT_SCRYPT));
    assert_eq!(scrypt_text("password", SALT, Cost { ln: 0, ..COST }), Err(Error::OutOfRange));
    let mut key = [0; 64];
    assert_eq!(scrypt(b"", b"", Cost { ln: 4, r: 1, p: 1 }, &mut key), Ok(()));
    assert_eq!(key[..4], *b"\x77\xd6\x57\x62");
    // `hashlib.scrypt(b"password", salt=b"NaCl", n=16, r=3, p=2, dklen=64)` begins so.
    assert_eq!(scrypt(b"password", b"NaCl", Cost { ln: 4, r: 3, p: 2 }, &mut key), Ok(()));
    assert_eq!(key[..8], *b"\xff\xa3\xac\x6d\x2d\x52\x53\x74");
}

// Of libxcrypt's crypt_gensalt(3) and crypt(3), Python's hashlib and the program argon2, for one password and one salt.
const SALT_16: &[u8] = b"0123456789abcdef";
const MADE: [(Scheme, &str); 4] = [
    (Scheme::Bcrypt { cost: 4 }, "$2b$04$KBCwKxOzLha2MUDgW0PjXexGfB5dmDvvvgEVjeeXiTo87i0yXWYau"),
    (Scheme::Yescrypt { ln: 10, r: 8, t: 0 }, "$y$j75$k2XAnEHBqQ1Ct2aMXFKNa/$E9XAySfP6N2THWdzNKesSVmhpcmhNusa8y5TMfT668."),
    (
        Scheme::Argon2id { memory: 64, passes: 3, lanes: 2 },
        "$argon2id$v=19$m=64,t=3,p=2$MDEyMzQ1Njc4OWFiY2RlZg$J4kPJI8w65Je5kJ2G7RTwG+seaIDuxomFJ+FRQCXmpY",
    ),
    (
        Scheme::Pbkdf2Sha256 { rounds: 1_000 },
        "$pbkdf2-sha256$i=1000,l=32$MDEyMzQ1Njc4OWFiY2RlZg$cBg8D2DungRB9k76szThf5ehfyBz991ay6PT8Srwk4M",
    ),
];

#[test]
fn texts() {
    for (scheme, text) in MADE {
        assert_eq!(make(scheme, b"correct horse", SALT_16).as_deref(), Ok(text));
        assert_eq!(make(scheme, b"correct horse", &SALT_16[1..]), Err(Error::OutOfRange));
        let mut out = [b'x'; TEXT_MAX];
        assert_eq!(make_into(scheme, b"correct horse", SALT_16, &mut out[..text.len() - 1]), Err(Error::NoRoom));
        assert_eq!(make_into(scheme, b"\xff", SALT_16, &mut out), Err(Error::RefusedUtf8));
        assert_eq!(make_into(scheme, &[b'a'; 4_097], SALT_16, &mut out), Err(Error::RefusedLength));
        assert_eq!(out, [b'x'; TEXT_MAX]);
        assert_eq!(make_into(scheme, b"correct horse", SALT_16, &mut out), Ok(text));
    }
    assert_eq!(make(MADE[0].0, b"a\0", SALT_16), Err(Error::RefusedZero));
    assert_eq!(make(Scheme::Bcrypt { cost: 3 }, b"a\0", SALT_16), Err(Error::OutOfRange));
    assert_eq!(make(Scheme::Scrypt(COST), b"password", SALT).as_deref(), Ok(TEXT_SCRYPT));
    assert_eq!(make(Scheme::Scrypt(COST), b"\xff", SALT), Err(Error::RefusedUtf8));
    // libxcrypt, by crypt_gensalt(3) of twelve bytes.
    let made = make(Scheme::Sha256Crypt { rounds: 5_000 }, b"secret", b"\0\x01\x02\x03\x04\x05\x06\x07\x08\x09\x0a\x0b");
    assert_eq!(made.as_deref(), Ok("$5$.2U.1EE/4Q.07ck0$CzGJZOHQDllUMYGxhIcFqR.3b3ZjuC1RO5x8IBkm0D1"));
    assert_eq!(make(Scheme::Sha512Crypt { rounds: 1_000 }, b"a\0b", &SALT_16[..12]), Err(Error::RefusedZero));
    assert_eq!(make(Scheme::Sha512Crypt { rounds: 1_000 }, b"a", SALT_16), Err(Error::OutOfRange));
}

// Each recommended cost is taken: a cost that isn't would be refused before the password.
#[test]
fn recommended() {
    for scheme in [Scheme::BCRYPT, Scheme::YESCRYPT, Scheme::ARGON2ID, Scheme::PBKDF2_SHA256] {
        assert_eq!(make(scheme, b"\xff", SALT_16), Err(Error::RefusedUtf8));
    }
}

#[test]
fn coder() {
    assert_eq!(base64_encode(Alphabet::Base64, b"fo").as_deref(), Ok("Zm8="));
    assert_eq!(base64_encode(Alphabet::Base64Unpadded, b"fo").as_deref(), Ok("Zm8"));
    assert_eq!(base64_decode(Alphabet::Base64, b"Zm9v").as_deref(), Ok(b"foo".as_slice()));
    assert_eq!(base64_decode(Alphabet::Base64, b"Zm9"), Err(Error::NotBase64));
    assert!(same_bytes(b"ab", b"ab") && !same_bytes(b"ab", b"ac"));
}
