//! The exports, as include/pwcheck.h declares them.

use crate::Limits;

type In = *const u8;
type Out = *mut u8;
type Len = *mut usize;

/// The limits as the library takes them, after the size of both.
#[repr(C)]
pub struct SizedLimits {
    pub size: u32,
    pub limits: Limits,
}

unsafe extern "C" {
    pub fn pwcheck_check(password: In, password_len: usize, stored: In, stored_len: usize) -> i32;
    pub fn pwcheck_check_limited(p: In, p_len: usize, s: In, s_len: usize, max_rounds: u32, max_bytes: u64) -> i32;
    pub fn pwcheck_check_any(p: In, p_len: usize, s: In, s_len: usize, limits: *const SizedLimits) -> i32;
    pub fn pwcheck_check_login(p: In, p_len: usize, s: In, s_len: usize) -> i32;
    pub fn pwcheck_make(p: In, p_len: usize, out: Out, out_len: usize, len: Len) -> i32;
    pub fn pwcheck_needs_remake(stored: In, stored_len: usize) -> bool;
    pub fn pwcheck_sha256_check(password: In, password_len: usize, stored: In, stored_len: usize) -> i32;
    pub fn pwcheck_sha512_check(password: In, password_len: usize, stored: In, stored_len: usize) -> i32;
    pub fn pwcheck_word(number: i32, out: Out, out_len: usize) -> usize;
    pub fn pwcheck_version(out: Out, out_len: usize) -> usize;
    pub fn pwcheck_scrypt(
        p: In, p_len: usize, s: In, s_len: usize, ln: u32, r: u32, parts: u32, out: Out, out_len: usize,
    ) -> i32;
    pub fn pwcheck_scrypt_text(
        p: In, p_len: usize, s: In, s_len: usize, ln: u32, r: u32, parts: u32, out: Out, out_len: usize, len: Len,
    ) -> i32;
    pub fn pwcheck_sha256_crypt(p: In, p_len: usize, s: In, s_len: usize, rounds: u32, out: Out, out_len: usize) -> i32;
    pub fn pwcheck_sha512_crypt(p: In, p_len: usize, s: In, s_len: usize, rounds: u32, out: Out, out_len: usize) -> i32;
    pub fn pwcheck_sha256_crypt_b64(
        p: In, p_len: usize, s: In, s_len: usize, rounds: u32, out: Out, out_len: usize,
    ) -> i32;
    pub fn pwcheck_sha512_crypt_b64(
        p: In, p_len: usize, s: In, s_len: usize, rounds: u32, out: Out, out_len: usize,
    ) -> i32;
    pub fn pwcheck_sha256_crypt_text(
        p: In, p_len: usize, s: In, s_len: usize, rounds: u32, out: Out, out_len: usize, len: Len,
    ) -> i32;
    pub fn pwcheck_sha512_crypt_text(
        p: In, p_len: usize, s: In, s_len: usize, rounds: u32, out: Out, out_len: usize, len: Len,
    ) -> i32;
    pub fn pwcheck_bcrypt_text(
        p: In, p_len: usize, s: In, s_len: usize, cost: u32, out: Out, out_len: usize, len: Len,
    ) -> i32;
    pub fn pwcheck_yescrypt_text(
        p: In, p_len: usize, s: In, s_len: usize, ln: u32, r: u32, t: u32, out: Out, out_len: usize, len: Len,
    ) -> i32;
    pub fn pwcheck_argon2id_text(
        p: In, p_len: usize, s: In, s_len: usize, memory: u32, passes: u32, lanes: u32, out: Out, out_len: usize, len: Len,
    ) -> i32;
    pub fn pwcheck_pbkdf2_sha256_text(
        p: In, p_len: usize, s: In, s_len: usize, rounds: u32, out: Out, out_len: usize, len: Len,
    ) -> i32;
    pub fn pwcheck_base64_encoded_len(alphabet: u32, n: usize) -> usize;
    pub fn pwcheck_base64_decoded_len(alphabet: u32, src: In, src_len: usize) -> usize;
    pub fn pwcheck_base64_decode(alphabet: u32, src: In, src_len: usize, dst: Out, dst_len: usize, len: Len) -> i32;
    pub fn pwcheck_base64_encode(alphabet: u32, src: In, src_len: usize, dst: Out, dst_len: usize, len: Len) -> i32;
    pub fn pwcheck_same_bytes(a: In, a_len: usize, b: In, b_len: usize) -> bool;
}
