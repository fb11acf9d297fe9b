//! Texts to store of new passwords.

use crate::{Cost, Error, c, done};

/// Room for the text of every scheme.
pub const TEXT_MAX: usize = 123;

/// The bytes of a salt, but of SHA-crypt.
pub const SALT_SIZE: usize = 16;

/// The most bytes of a password; those of bcrypt, of which no more count.
const PASSWORD_MAX: usize = 4096;
pub const BCRYPT_PASSWORD_MAX: usize = 72;

/// The bytes that the 16 characters of a salt of SHA-crypt stand for.
const SHA_SALT_LEN: usize = 16 * 6 / 8;

/// A scheme of which texts are made, with what its text costs. The constants are recommended today; `include/pwcheck.h` names
/// their sources, and the bounds of each number.
#[derive(Clone, Copy, Debug, PartialEq, Eq)]
pub enum Scheme {
    /// `$5$[rounds=N$]salt$hash`.
    Sha256Crypt { rounds: u32 },
    /// `$6$[rounds=N$]salt$hash`.
    Sha512Crypt { rounds: u32 },
    /// `$scrypt$ln=L,r=R,p=P$salt$key`.
    Scrypt(Cost),
    /// `$2b$cost$..`, of 2^`cost` turns.
    Bcrypt { cost: u32 },
    /// `$y$..`: N = 2^`ln`, 128 * `r` * N bytes of memory, `t` turns more than the default.
    Yescrypt { ln: u32, r: u32, t: u32 },
    /// `$argon2id$v=19$m=M,t=T,p=P$salt$key`: KiB of memory, passes over it, lanes.
    Argon2id { memory: u32, passes: u32, lanes: u32 },
    /// `$pbkdf2-sha256$i=N,l=32$salt$key`.
    Pbkdf2Sha256 { rounds: u32 },
}

impl Scheme {
    pub const SHA256_CRYPT: Scheme = Scheme::Sha256Crypt { rounds: 535_000 };
    pub const SHA512_CRYPT: Scheme = Scheme::Sha512Crypt { rounds: 656_000 };
    pub const SCRYPT: Scheme = Scheme::Scrypt(Cost { ln: 17, r: 8, p: 1 });
    pub const BCRYPT: Scheme = Scheme::Bcrypt { cost: 12 };
    pub const YESCRYPT: Scheme = Scheme::Yescrypt { ln: 12, r: 32, t: 0 };
    pub const ARGON2ID: Scheme = Scheme::Argon2id { memory: 65_536, passes: 3, lanes: 4 };
    pub const PBKDF2_SHA256: Scheme = Scheme::Pbkdf2Sha256 { rounds: 600_000 };

    /// The bytes of a salt: 12 of SHA-crypt, 16 of every other scheme.
    pub const fn salt_len(self) -> usize {
        match self {
            Scheme::Sha256Crypt { .. } | Scheme::Sha512Crypt { .. } => SHA_SALT_LEN,
            _ => SALT_SIZE,
        }
    }
}

/// Refuses a password as the library's newer calls do, for SHA-crypt and scrypt, whose older ones say out of range.
fn fit(password: &[u8], takes_zero: bool) -> Result<(), Error> {
    if password.len() > PASSWORD_MAX {
        return Err(Error::RefusedLength);
    }
    if core::str::from_utf8(password).is_err() {
        return Err(Error::RefusedUtf8);
    }
    if !takes_zero && password.contains(&0) {
        return Err(Error::RefusedZero);
    }
    Ok(())
}

/// The characters of a salt of SHA-crypt.
fn salt_characters(salt: &[u8]) -> Result<[u8; 16], Error> {
    let (mut text, mut n) = ([0; 16], 0);
    let alphabet = crate::Alphabet::Base64ShaCrypt as u32;
    done(unsafe { c::pwcheck_base64_encode(alphabet, salt.as_ptr(), salt.len(), text.as_mut_ptr(), text.len(), &mut n) })?;
    Ok(text)
}

/// Calls the maker of a scheme.
fn call(scheme: Scheme, p: &[u8], s: &[u8], out: &mut [u8], n: &mut usize) -> i32 {
    let (password, salt, to, room) = (p.as_ptr(), s.as_ptr(), out.as_mut_ptr(), out.len());
    // The pointers are those of slices, and the call writes at most `room` bytes and the length.
    unsafe {
        match scheme {
            Scheme::Sha256Crypt { rounds } => {
                c::pwcheck_sha256_crypt_text(password, p.len(), salt, s.len(), rounds, to, room, n)
            }
            Scheme::Sha512Crypt { rounds } => {
                c::pwcheck_sha512_crypt_text(password, p.len(), salt, s.len(), rounds, to, room, n)
            }
            Scheme::Scrypt(cost) => {
                c::pwcheck_scrypt_text(password, p.len(), salt, s.len(), cost.ln, cost.r, cost.p, to, room, n)
            }
            Scheme::Bcrypt { cost } => c::pwcheck_bcrypt_text(password, p.len(), salt, s.len(), cost, to, room, n),
            Scheme::Yescrypt { ln, r, t } => {
                c::pwcheck_yescrypt_text(password, p.len(), salt, s.len(), ln, r, t, to, room, n)
            }
            Scheme::Argon2id { memory, passes, lanes } => {
                c::pwcheck_argon2id_text(password, p.len(), salt, s.len(), memory, passes, lanes, to, room, n)
            }
            Scheme::Pbkdf2Sha256 { rounds } => {
                c::pwcheck_pbkdf2_sha256_text(password, p.len(), salt, s.len(), rounds, to, room, n)
            }
        }
    }
}

/// Writes the text to store of a password to the front of `out`, for which [`TEXT_MAX`] bytes are room, and gives it.
///
/// The salt has [`Scheme::salt_len`] bytes, which the caller draws at random, for each text anew. [`crate::check_any`] answers
/// the text with [`crate::Answer::Match`].
///
/// # Errors
///
/// [`Error::OutOfRange`] for a number or a salt that isn't taken; [`Error::RefusedLength`] for a password of more than 4,096 bytes
/// (bcrypt: 72), [`Error::RefusedUtf8`], and [`Error::RefusedZero`] for a zero byte (SHA-crypt, bcrypt, yescrypt);
/// [`Error::NoMemory`] and [`Error::NoRoom`]. `out` is then as it was.
///
/// ```
/// use pwcheck::{Answer, Error, Limits, SALT_SIZE, Scheme, TEXT_MAX, check_any, make_into};
///
/// let salt = [7; SALT_SIZE]; // for a password of someone, drawn at random
/// let mut out = [0; TEXT_MAX];
/// let stored = make_into(Scheme::Bcrypt { cost: 5 }, b"secret", &salt, &mut out)?;
/// assert!(stored.starts_with("$2b$05$"));
/// assert_eq!(check_any(b"secret", stored.as_bytes(), &Limits::NONE), Answer::Match);
/// assert_eq!(make_into(Scheme::BCRYPT, &[b'a'; 73], &salt, &mut out), Err(Error::RefusedLength));
/// # Ok::<(), Error>(())
/// ```
pub fn make_into<'a>(scheme: Scheme, password: &[u8], salt: &[u8], out: &'a mut [u8]) -> Result<&'a str, Error> {
    if salt.len() != scheme.salt_len() {
        return Err(Error::OutOfRange);
    }
    let mut n = 0;
    let status = match scheme {
        Scheme::Sha256Crypt { .. } | Scheme::Sha512Crypt { .. } => {
            fit(password, false)?;
            call(scheme, password, &salt_characters(salt)?, out, &mut n)
        }
        Scheme::Scrypt(_) => {
            fit(password, true)?;
            call(scheme, password, salt, out, &mut n)
        }
        _ => call(scheme, password, salt, out, &mut n),
    };
    done(status)?;
    // A text is ASCII.
    Ok(out.get(..n).and_then(|text| core::str::from_utf8(text).ok()).unwrap_or(""))
}

/// Writes the text to store of a password by the scheme and the cost that the library recommends, with a salt that it draws, and
/// gives the text. [`check_login`](crate::check_login) answers the text with a match.
///
/// # Errors
///
/// As [`make_into`], and [`Error::NoRandom`] where the system gives no random bytes.
pub fn make_recommended_into<'a>(password: &[u8], out: &'a mut [u8]) -> Result<&'a str, Error> {
    let mut n = 0;
    done(unsafe { c::pwcheck_make(password.as_ptr(), password.len(), out.as_mut_ptr(), out.len(), &mut n) })?;
    // A text is ASCII.
    Ok(out.get(..n).and_then(|text| core::str::from_utf8(text).ok()).unwrap_or(""))
}

/// The text that [`make_recommended_into`] writes, in memory of its own.
///
/// ```
/// use pwcheck::{Answer, check_login, make_recommended};
///
/// let stored = make_recommended(b"correct horse")?;
/// assert_eq!(check_login(b"correct horse", stored.as_bytes()), Answer::Match);
/// assert_eq!(check_login(b"battery staple", stored.as_bytes()), Answer::Mismatch);
/// # Ok::<(), pwcheck::Error>(())
/// ```
#[cfg(feature = "std")]
pub fn make_recommended(password: &[u8]) -> Result<String, Error> {
    let mut out = [0; TEXT_MAX];
    make_recommended_into(password, &mut out).map(String::from)
}

/// The text that [`make_into`] writes, in memory of its own.
///
/// ```
/// use pwcheck::{Scheme, make};
///
/// // The same text as `argon2 0123456789abcdef -id -k 64 -t 2 -p 2 -l 32 -e` gives.
/// let stored = make(Scheme::Argon2id { memory: 64, passes: 2, lanes: 2 }, b"correct horse", b"0123456789abcdef")?;
/// assert_eq!(stored, "$argon2id$v=19$m=64,t=2,p=2$MDEyMzQ1Njc4OWFiY2RlZg$ehqGRlXhNY90u1mXokuaGpor9OaG4WSZVb4jCfev4ys");
/// # Ok::<(), pwcheck::Error>(())
/// ```
#[cfg(feature = "std")]
pub fn make(scheme: Scheme, password: &[u8], salt: &[u8]) -> Result<String, Error> {
    let mut out = [0; TEXT_MAX];
    make_into(scheme, password, salt, &mut out).map(String::from)
}
