//! Stored passwords checked and made by the C library pwcheck.
//!
//! Each check returns an [`Answer`], of which [`Answer::Match`] alone is leave to enter. What isn't taken is an
//! [`Error`]. [`make`] and [`make_into`] give the text to store of a new password.
//!
//! ```
//! use pwcheck::{Answer, Limits, check_any};
//!
//! // Of the password "secret", by `htpasswd -B` with cost 5.
//! let stored = b"$2y$05$abcdefghijklmnopqrstuuOQiyCxlgf/oeuTqixKmWdcYUh4Hjl0a";
//! let limits = Limits { bcrypt_cost: 12, argon2_memory: 65_536, ..Limits::NONE };
//! assert_eq!(check_any(b"secret", stored, &limits), Answer::Match);
//! assert_eq!(check_any(b"Secret", stored, &limits), Answer::Mismatch);
//! ```
//!
//! Without the feature `std`, which is on by default, the crate is `no_std` and leaves out what returns a `String` or a `Vec`.

#![cfg_attr(not(any(feature = "std", test)), no_std)]

#[cfg_attr(not(feature = "std"), allow(dead_code))]
mod c;
mod texts;

#[cfg(feature = "std")]
pub use texts::{make, make_recommended};
pub use texts::{BCRYPT_PASSWORD_MAX, SALT_SIZE, Scheme, TEXT_MAX, make_into, make_recommended_into};

use core::fmt;

/// Room for each word and the zero behind it.
const WORD_SIZE: usize = 18;
#[cfg(feature = "std")]
const SHA256_TEXT_MAX: usize = 80;
#[cfg(feature = "std")]
const SHA512_TEXT_MAX: usize = 123;
#[cfg(feature = "std")]
const SCRYPT_TEXT_MAX: usize = 93;

/// What a password and a stored text are answered with: a verdict, or the first cause that there is none. A number that
/// a later library answers is [`Answer::Unknown`]; `include/pwcheck.h` tells each number.
#[derive(Clone, Copy, Debug, PartialEq, Eq)]
#[must_use]
pub enum Answer {
    Match,
    Mismatch,
    NotUtf8,
    OutOfMemory,
    PasswordTooLong,
    McfDelimiter,
    McfIdentifier,
    McfField,
    McfEncoding,
    ShaIdentifier,
    ShaNoFields,
    ShaNoSalt,
    ShaRoundsNotNumber,
    ShaNoHash,
    ShaTrailing,
    ShaRounds,
    ShaSaltTooLong,
    ShaBase64,
    PhcName,
    PhcValueLong,
    PhcValue,
    PhcParamsLong,
    PhcSaltShort,
    PhcSaltLong,
    PhcB64,
    PhcHashLong,
    PhcHashShort,
    PhcTrailing,
    NoHash,
    Kdf,
    OverCost,
    NoScheme,
    Md5Format,
    BcryptObsolete,
    BcryptCost,
    BcryptB64,
    BcryptFormat,
    YescryptFlavor,
    YescryptCost,
    YescryptFormat,
    ScryptCost,
    ScryptFormat,
    ZeroByte,
    Sha1Cost,
    Sha1B64,
    Sha1Format,
    ScramCost,
    ScramB64,
    ScramFormat,
    NotAscii,
    PhpassCost,
    PhpassB64,
    PhpassFormat,
    DigestB64,
    DigestFormat,
    /// The rounds of a text `$mysql$` are none of 5,000 to 4,095,000, by three digits.
    MysqlCost,
    /// The hash of a text `$mysql$` is that of no digest.
    MysqlB64,
    /// The text `$mysql$` has another fault.
    MysqlFormat,
    /// The answer of a later library.
    Unknown(i32),
}

/// The answers by their numbers.
pub const ANSWERS: [Answer; 58] = [
    Answer::Match,
    Answer::Mismatch,
    Answer::NotUtf8,
    Answer::OutOfMemory,
    Answer::PasswordTooLong,
    Answer::McfDelimiter,
    Answer::McfIdentifier,
    Answer::McfField,
    Answer::McfEncoding,
    Answer::ShaIdentifier,
    Answer::ShaNoFields,
    Answer::ShaNoSalt,
    Answer::ShaRoundsNotNumber,
    Answer::ShaNoHash,
    Answer::ShaTrailing,
    Answer::ShaRounds,
    Answer::ShaSaltTooLong,
    Answer::ShaBase64,
    Answer::PhcName,
    Answer::PhcValueLong,
    Answer::PhcValue,
    Answer::PhcParamsLong,
    Answer::PhcSaltShort,
    Answer::PhcSaltLong,
    Answer::PhcB64,
    Answer::PhcHashLong,
    Answer::PhcHashShort,
    Answer::PhcTrailing,
    Answer::NoHash,
    Answer::Kdf,
    Answer::OverCost,
    Answer::NoScheme,
    Answer::Md5Format,
    Answer::BcryptObsolete,
    Answer::BcryptCost,
    Answer::BcryptB64,
    Answer::BcryptFormat,
    Answer::YescryptFlavor,
    Answer::YescryptCost,
    Answer::YescryptFormat,
    Answer::ScryptCost,
    Answer::ScryptFormat,
    Answer::ZeroByte,
    Answer::Sha1Cost,
    Answer::Sha1B64,
    Answer::Sha1Format,
    Answer::ScramCost,
    Answer::ScramB64,
    Answer::ScramFormat,
    Answer::NotAscii,
    Answer::PhpassCost,
    Answer::PhpassB64,
    Answer::PhpassFormat,
    Answer::DigestB64,
    Answer::DigestFormat,
    Answer::MysqlCost,
    Answer::MysqlB64,
    Answer::MysqlFormat,
];

impl Answer {
    /// The answer with this number.
    fn of(number: i32) -> Answer {
        let known = usize::try_from(number).ok().and_then(|at| ANSWERS.get(at));
        known.copied().unwrap_or(Answer::Unknown(number))
    }

    /// The number.
    pub fn number(self) -> i32 {
        match self {
            Answer::Unknown(number) => number,
            known => ANSWERS.iter().position(|&a| a == known).map_or(-1, |at| at as i32),
        }
    }

    /// The word, empty for one that the library doesn't know.
    #[cfg(feature = "std")]
    pub fn word(self) -> String {
        self.to_string()
    }
}

/// The word, as [`Answer::word`] gives it.
///
/// ```
/// assert_eq!(format!("{}", pwcheck::Answer::PhcSaltShort), "phc-salt-short");
/// ```
impl fmt::Display for Answer {
    fn fmt(&self, f: &mut fmt::Formatter<'_>) -> fmt::Result {
        let mut out = [0; WORD_SIZE];
        // The call writes at most the bytes that it is given.
        let n = unsafe { c::pwcheck_word(self.number(), out.as_mut_ptr(), out.len()) };
        f.write_str(out.get(..n).and_then(|word| core::str::from_utf8(word).ok()).unwrap_or(""))
    }
}

/// Why a call of the library isn't done.
#[derive(Clone, Copy, Debug, PartialEq, Eq)]
pub enum Error {
    /// A number or a length is outside what is taken.
    OutOfRange,
    /// There is no memory for the key.
    NoMemory,
    /// The buffer is too short.
    NoRoom,
    /// The text is the encoding of no bytes.
    NotBase64,
    /// The password has more bytes than the scheme takes.
    RefusedLength,
    /// The password isn't UTF-8.
    RefusedUtf8,
    /// The password has a zero byte, which the scheme doesn't take.
    RefusedZero,
    /// The system gave no random bytes.
    NoRandom,
    /// The status of a later library.
    Unknown(i32),
}

impl fmt::Display for Error {
    fn fmt(&self, f: &mut fmt::Formatter<'_>) -> fmt::Result {
        match self {
            Error::OutOfRange => write!(f, "a number or a length is out of range"),
            Error::NoMemory => write!(f, "there is no memory for the key"),
            Error::NoRoom => write!(f, "the buffer is too short"),
            Error::NotBase64 => write!(f, "the text is the encoding of no bytes"),
            Error::RefusedLength => write!(f, "the password is too long"),
            Error::RefusedUtf8 => write!(f, "the password isn't UTF-8"),
            Error::RefusedZero => write!(f, "the password has a zero byte"),
            Error::NoRandom => write!(f, "the system gave no random bytes"),
            Error::Unknown(number) => write!(f, "the library answers {number}"),
        }
    }
}

impl core::error::Error for Error {}

/// The alphabets of Base64.
#[derive(Clone, Copy, Debug, PartialEq, Eq)]
#[repr(u32)]
pub enum Alphabet {
    Base64 = 0,
    Base64Unpadded = 1,
    Base64Url = 2,
    Base64UrlUnpadded = 3,
    Base64Bcrypt = 4,
    Base64Crypt = 5,
    Base64Pbkdf2 = 6,
    Base64ShaCrypt = 7,
}

/// The cost of scrypt: N = 2^`ln`, blocks of 128 * `r` bytes, `p` parts.
#[derive(Clone, Copy, Debug, PartialEq, Eq)]
pub struct Cost {
    pub ln: u32,
    pub r: u32,
    pub p: u32,
}

fn done(status: i32) -> Result<(), Error> {
    match status {
        0 => Ok(()),
        -1 => Err(Error::OutOfRange),
        -2 => Err(Error::NoMemory),
        -3 => Err(Error::NoRoom),
        -4 => Err(Error::NotBase64),
        -5 => Err(Error::RefusedLength),
        -6 => Err(Error::RefusedUtf8),
        -7 => Err(Error::RefusedZero),
        -8 => Err(Error::NoRandom),
        other => Err(Error::Unknown(other)),
    }
}

/// The bytes that a call writes to the front of a buffer of `room` bytes.
#[cfg(feature = "std")]
fn written(room: usize, call: impl FnOnce(&mut [u8], &mut usize) -> i32) -> Result<Vec<u8>, Error> {
    let mut out = vec![0; room];
    let mut n = 0;
    done(call(&mut out, &mut n))?;
    out.truncate(n);
    Ok(out)
}

#[cfg(feature = "std")]
fn text(bytes: Vec<u8>) -> String {
    String::from_utf8_lossy(&bytes).into_owned()
}

// In each block below the pointers are those of slices, which are never null; the call reads the ones it is given as
// `*const`, and writes at most the bytes of the others, which are this crate's own or lent to it alone.

/// Checks a password against a stored text, SHA-crypt or a PHC record of scrypt.
///
/// ```
/// use pwcheck::{Answer, check};
///
/// let stored = b"$5$saltstring$5B8vYYiY.CVt1RlTTf8KbXBH3hsxY/GNooZaBBGWEc5";
/// assert_eq!(check(b"Hello world!", stored), Answer::Match);
/// ```
pub fn check(password: &[u8], stored: &[u8]) -> Answer {
    Answer::of(unsafe { c::pwcheck_check(password.as_ptr(), password.len(), stored.as_ptr(), stored.len()) })
}

/// Checks as [`check`], but answers [`Answer::OverCost`], and computes nothing, for a valid text of more than
/// `max_rounds` rounds of SHA-crypt, or of scrypt that mixes more than `max_bytes` bytes (128 r p 2^ln).
pub fn check_limited(password: &[u8], stored: &[u8], max_rounds: u32, max_bytes: u64) -> Answer {
    let (p, s) = (password, stored);
    Answer::of(unsafe { c::pwcheck_check_limited(p.as_ptr(), p.len(), s.as_ptr(), s.len(), max_rounds, max_bytes) })
}

/// The most that a valid stored text may ask for, scheme by scheme; `include/pwcheck.h` tells each number. A limit that no
/// text reaches bounds nothing: begin with [`Limits::NONE`].
#[derive(Clone, Copy, Debug, PartialEq, Eq)]
#[repr(C)]
pub struct Limits {
    pub sha_rounds: u32,
    pub bcrypt_cost: u32,
    pub yescrypt_ln: u32,
    pub yescrypt_r: u32,
    pub yescrypt_t: u32,
    pub pbkdf2_rounds: u32,
    pub scrypt_ln: u32,
    pub scrypt_r: u32,
    pub scrypt_p: u32,
    pub argon2_memory: u32,
    pub argon2_passes: u32,
    pub argon2_lanes: u32,
}

impl Limits {
    /// No text is above these.
    pub const NONE: Limits = Limits {
        sha_rounds: u32::MAX,
        bcrypt_cost: u32::MAX,
        yescrypt_ln: u32::MAX,
        yescrypt_r: u32::MAX,
        yescrypt_t: u32::MAX,
        pbkdf2_rounds: u32::MAX,
        scrypt_ln: u32::MAX,
        scrypt_r: u32::MAX,
        scrypt_p: u32::MAX,
        argon2_memory: u32::MAX,
        argon2_passes: u32::MAX,
        argon2_lanes: u32::MAX,
    };

    /// For a login: `include/pwcheck.h` names the source of each number.
    pub const LOGIN: Limits = Limits {
        sha_rounds: 5_248_000,
        bcrypt_cost: 15,
        yescrypt_ln: 15,
        yescrypt_r: 32,
        yescrypt_t: 0,
        pbkdf2_rounds: 4_800_000,
        scrypt_ln: 17,
        scrypt_r: 32,
        scrypt_p: 10,
        argon2_memory: 262_144,
        argon2_passes: 8,
        argon2_lanes: 8,
    };
}

/// Checks a password against a stored text of every scheme, and answers [`Answer::OverCost`], and hashes nothing, for a valid
/// text that asks for more than a limit.
///
/// ```
/// use pwcheck::{Answer, Limits, check_any};
///
/// let costly = b"$2b$31$abcdefghijklmnopqrstuu2r9OfJnfCsdneAXAGHnS4UpFFP8WIrW";
/// let limits = Limits { bcrypt_cost: 12, ..Limits::NONE };
/// assert_eq!(check_any(b"secret", costly, &limits), Answer::OverCost);
/// assert_eq!(check_any(b"secret", b"*", &limits), Answer::NoScheme);
/// ```
pub fn check_any(password: &[u8], stored: &[u8], limits: &Limits) -> Answer {
    let (p, s) = (password, stored);
    let limits = c::SizedLimits { size: size_of::<c::SizedLimits>() as u32, limits: *limits };
    Answer::of(unsafe { c::pwcheck_check_any(p.as_ptr(), p.len(), s.as_ptr(), s.len(), &limits) })
}

/// Checks a password against a stored text of every scheme within [`Limits::LOGIN`]: what a login service asks.
pub fn check_login(password: &[u8], stored: &[u8]) -> Answer {
    let (p, s) = (password, stored);
    Answer::of(unsafe { c::pwcheck_check_login(p.as_ptr(), p.len(), s.as_ptr(), s.len()) })
}

/// Whether a text of [`make_recommended`] is to take the place of a stored text: this one is weak, of another scheme than Argon2id,
/// or without a verdict. Nothing is hashed. Ask after a match, and then store the text that [`make_recommended`] makes of the same
/// password.
///
/// ```
/// use pwcheck::{make_recommended, needs_remake};
///
/// assert!(needs_remake(b"$2b$12$abcdefghijklmnopqrstuu2r9OfJnfCsdneAXAGHnS4UpFFP8WIrW"));
/// assert!(!needs_remake(make_recommended(b"correct horse").unwrap().as_bytes()));
/// ```
pub fn needs_remake(stored: &[u8]) -> bool {
    unsafe { c::pwcheck_needs_remake(stored.as_ptr(), stored.len()) }
}

/// Checks a password against a text of SHA-256-crypt alone.
pub fn sha256_check(password: &[u8], stored: &[u8]) -> Answer {
    Answer::of(unsafe { c::pwcheck_sha256_check(password.as_ptr(), password.len(), stored.as_ptr(), stored.len()) })
}

/// Checks a password against a text of SHA-512-crypt alone.
pub fn sha512_check(password: &[u8], stored: &[u8]) -> Answer {
    Answer::of(unsafe { c::pwcheck_sha512_check(password.as_ptr(), password.len(), stored.as_ptr(), stored.len()) })
}

/// The version of the library that is linked.
#[cfg(feature = "std")]
pub fn version() -> String {
    let mut out = [0; 32];
    let n = unsafe { c::pwcheck_version(out.as_mut_ptr(), out.len()) };
    String::from_utf8_lossy(&out[..n.min(out.len())]).into_owned()
}

/// Writes the key of scrypt (RFC 7914) to `out`, of 1 to 64 bytes.
pub fn scrypt(password: &[u8], salt: &[u8], cost: Cost, out: &mut [u8]) -> Result<(), Error> {
    let (p, s) = (password, salt);
    done(unsafe {
        let out_len = out.len();
        c::pwcheck_scrypt(
            p.as_ptr(), p.len(), s.as_ptr(), s.len(), cost.ln, cost.r, cost.p, out.as_mut_ptr(), out_len,
        )
    })
}

/// The PHC text of a password of at most 4,096 bytes, for a salt that the caller draws at random.
#[cfg(feature = "std")]
pub fn scrypt_text(password: &str, salt: &[u8; 16], cost: Cost) -> Result<String, Error> {
    let (p, s) = (password.as_bytes(), salt);
    written(SCRYPT_TEXT_MAX, |out, n| unsafe {
        c::pwcheck_scrypt_text(
            p.as_ptr(), p.len(), s.as_ptr(), s.len(), cost.ln, cost.r, cost.p, out.as_mut_ptr(), out.len(), n,
        )
    })
    .map(text)
}

macro_rules! sha_crypt {
    ($name:literal, $digest:ident, $field:ident, $text:ident, $size:literal, $field_size:literal, $text_max:ident,
     $c_digest:ident, $c_field:ident, $c_text:ident) => {
        #[doc = concat!("The digest of ", $name, ". The first 16 bytes of the salt count.")]
        pub fn $digest(password: &[u8], salt: &[u8], rounds: u32) -> Result<[u8; $size], Error> {
            let (p, s, mut out) = (password, salt, [0; $size]);
            done(unsafe {
                c::$c_digest(p.as_ptr(), p.len(), s.as_ptr(), s.len(), rounds, out.as_mut_ptr(), out.len())
            })?;
            Ok(out)
        }

        #[doc = concat!("The hash field of the digest of ", $name, ".")]
        #[cfg(feature = "std")]
        pub fn $field(password: &[u8], salt: &[u8], rounds: u32) -> Result<String, Error> {
            let (p, s, mut out) = (password, salt, [0; $field_size]);
            done(unsafe {
                c::$c_field(p.as_ptr(), p.len(), s.as_ptr(), s.len(), rounds, out.as_mut_ptr(), out.len())
            })?;
            Ok(String::from_utf8_lossy(&out).into_owned())
        }

        #[doc = concat!("The ", $name, " text of a password of at most 4,096 bytes, for a salt of 1 to 16 characters ",
                        "of `[./0-9A-Za-z]` that the caller draws at random, and 1,000 to 999,999,999 rounds.")]
        #[cfg(feature = "std")]
        pub fn $text(password: &str, salt: &[u8], rounds: u32) -> Result<String, Error> {
            let (p, s) = (password.as_bytes(), salt);
            written($text_max, |out, n| unsafe {
                c::$c_text(p.as_ptr(), p.len(), s.as_ptr(), s.len(), rounds, out.as_mut_ptr(), out.len(), n)
            })
            .map(text)
        }
    };
}

sha_crypt!("SHA-256-crypt", sha256_digest, sha256_field, sha256_text, 32, 43, SHA256_TEXT_MAX,
           pwcheck_sha256_crypt, pwcheck_sha256_crypt_b64, pwcheck_sha256_crypt_text);
sha_crypt!("SHA-512-crypt", sha512_digest, sha512_field, sha512_text, 64, 86, SHA512_TEXT_MAX,
           pwcheck_sha512_crypt, pwcheck_sha512_crypt_b64, pwcheck_sha512_crypt_text);

/// The encoding of bytes in an alphabet.
#[cfg(feature = "std")]
pub fn base64_encode(alphabet: Alphabet, data: &[u8]) -> Result<String, Error> {
    let alphabet = alphabet as u32;
    let room = unsafe { c::pwcheck_base64_encoded_len(alphabet, data.len()) };
    written(room, |out, n| unsafe {
        c::pwcheck_base64_encode(alphabet, data.as_ptr(), data.len(), out.as_mut_ptr(), out.len(), n)
    })
    .map(text)
}

/// The bytes whose one encoding in an alphabet is this text.
#[cfg(feature = "std")]
pub fn base64_decode(alphabet: Alphabet, text: &[u8]) -> Result<Vec<u8>, Error> {
    let alphabet = alphabet as u32;
    let room = unsafe { c::pwcheck_base64_decoded_len(alphabet, text.as_ptr(), text.len()) };
    written(room, |out, n| unsafe {
        c::pwcheck_base64_decode(alphabet, text.as_ptr(), text.len(), out.as_mut_ptr(), out.len(), n)
    })
}

/// Whether two lists of bytes are the same, by steps that depend on their lengths alone.
pub fn same_bytes(a: &[u8], b: &[u8]) -> bool {
    unsafe { c::pwcheck_same_bytes(a.as_ptr(), a.len(), b.as_ptr(), b.len()) }
}

#[cfg(test)]
mod tests;
