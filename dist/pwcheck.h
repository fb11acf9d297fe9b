/* Password verification: stored texts of every scheme checked, and made; the keys and digests of SHA-crypt and scrypt;
 * and Base64.
 *
 * What holds of every call
 * - A slice is a pointer and then a length in bytes, of at most PTRDIFF_MAX. No pointer is null, not even beside the
 *   length 0, and each points to so many bytes.
 * - What is written (`out`, `dst`, `len`) overlaps nothing else that the call is given, and no other thread touches
 *   anything of a call while it runs. Calls with separate memory may run side by side.
 *   No call can check these two points; every other input is answered by a number or a length.
 * - Nothing is kept between calls, nothing is read or written but what is passed, errno is left alone where malloc and
 *   getrandom leave it, and no call prints or exits. pwcheck_make alone may wait: getrandom does, early in a boot.
 * - These calls take memory and give it back: pwcheck_check, pwcheck_check_limited, pwcheck_scrypt and
 *   pwcheck_scrypt_text at most 304 MiB, pwcheck_check_login at most 513 MiB, pwcheck_make 64 MiB. pwcheck_check_any
 *   takes what the stored text asks for, up to 2 GiB for Argon2: bound it. pwcheck_yescrypt_text and
 *   pwcheck_argon2id_text take what the numbers of the call ask for. No other call takes memory. A piece of 2 MiB or more
 *   is a mapping (mmap and munmap), a smaller one, and one for which there is no mapping, comes of malloc. These calls
 *   are not for signal handlers, nor for the forked child of a process with threads.
 * - The stored text sets the time of a check: its rounds, or the parameters of scrypt. SHA-crypt's grows with the
 *   square of the password's length too, so it takes passwords of at most 4,096 bytes. A stored text of another's
 *   choice may ask for hours: bound it by pwcheck_check_limited, or by the limits of pwcheck_check_any.
 * - The processor is x86-64-v2 or later. No call takes more than 8,192 bytes of stack beside malloc's, as
 *   checks/stack.py measures: a thread of PTHREAD_STACK_MIN (16 KB) is enough.
 * - After each call that takes a password the stack that it used, the vector registers and the memory that it took are
 *   overwritten or given back to the system. The caller's own copies, swap and core dumps are not the library's.
 *
 * How to check a password
 * - Compare the answer with PWCHECK_MATCH, and with nothing less. Every other number is no leave to enter:
 *       if (pwcheck_check_login(p, n, stored, m) == PWCHECK_MATCH)    right
 *       if (pwcheck_check_login(p, n, stored, m))                     wrong: true of a mismatch, false of a match
 * - PWCHECK_OUT_OF_MEMORY is no verdict, and PWCHECK_OVER_COST is none: tell the user to try later, and an operator.
 *   Don't count it as a wrong password.
 * - For a user that doesn't exist check the password against a fixed text of the same scheme and cost as the others,
 *   and throw the answer away. Else the time shows who exists.
 * - Draw salts by getrandom(2), arc4random_buf(3) or what else the system has for secrets, never by rand(3).
 *
 * How to make a text to store, with PWCHECK_DONE the one status that it is there:
 *       uint8_t text[PWCHECK_TEXT_MAX];
 *       size_t n;
 *       if (pwcheck_make(password, len, text, sizeof text, &n) == PWCHECK_DONE)
 *           keep(text, n);                                  n bytes, and no zero after them
 * After a match pwcheck_needs_remake(stored, m) says whether to keep such a text in the place of the one that matched.
 */
#ifndef PWCHECK_H
#define PWCHECK_H

#include <stdbool.h>
#include <stddef.h>
#include <stdint.h>

#ifdef __cplusplus
extern "C" {
#endif

/* The version of this interface. In a later one with the same first number each number and each call means the same;
 * new answers get new numbers. pwcheck_version gives that of the library that is linked. */
#define PWCHECK_VERSION "1.1"
#define PWCHECK_VERSION_MAJOR 1
#define PWCHECK_VERSION_MINOR 1

/* A caller who drops an answer, or passes a null pointer, is warned. Define these first to have it otherwise. */
#ifndef PWCHECK_MUST_USE
#if defined(__GNUC__)
#define PWCHECK_MUST_USE __attribute__((warn_unused_result))
#else
#define PWCHECK_MUST_USE
#endif
#endif
#ifndef PWCHECK_NONNULL
#if defined(__GNUC__)
#define PWCHECK_NONNULL __attribute__((nonnull))
#else
#define PWCHECK_NONNULL
#endif
#endif

/* What the checks answer, a verdict or the first cause that there is none. pwcheck_word gives the word. Which call has
 * which answer is said of pwcheck_check_any for pwcheck_check_login too. */
enum pwcheck_answer {
    PWCHECK_MATCH = 0,              /* the password is that of the stored text */
    PWCHECK_MISMATCH = 1,           /* the stored text is valid, and of another password */

    PWCHECK_NOT_UTF8 = 2,           /* the password or the stored text isn't UTF-8 */
    PWCHECK_OUT_OF_MEMORY = 3,      /* no verdict: there is no memory for the key. Never a mismatch */
    PWCHECK_PASSWORD_TOO_LONG = 4,  /* more than 4,096 bytes, and UTF-8: the whole password is read first */

    /* 5 to 8: pwcheck_check and pwcheck_check_limited; all but 6: pwcheck_check_any too */
    PWCHECK_MCF_DELIMITER = 5,      /* the stored text doesn't begin with '$', or it ends with it */
    PWCHECK_MCF_IDENTIFIER = 6,     /* the identifier isn't of a-z, 0-9 and -, or '-' is its first or last */
    PWCHECK_MCF_FIELD = 7,          /* a field is empty */
    PWCHECK_MCF_ENCODING = 8,       /* a field has a character that none may have */

    /* 10 to 17: identifiers 5 and 6; 9: pwcheck_sha256_check and pwcheck_sha512_check alone */
    PWCHECK_SHA_IDENTIFIER = 9,     /* the text doesn't begin with '$' and the family's identifier, 5 or 6 */
    PWCHECK_SHA_NO_FIELDS = 10,     /* no field after the identifier */
    PWCHECK_SHA_NO_SALT = 11,       /* rounds, and nothing after them */
    PWCHECK_SHA_ROUNDS_NOT_NUMBER = 12, /* no plain decimal below 2^64 follows "rounds=" */
    PWCHECK_SHA_NO_HASH = 13,       /* no field after the salt */
    PWCHECK_SHA_TRAILING = 14,      /* a field after the hash field */
    PWCHECK_SHA_ROUNDS = 15,        /* rounds outside 1,000 to 999,999,999 */
    PWCHECK_SHA_SALT_TOO_LONG = 16, /* more than 16 bytes */
    PWCHECK_SHA_BASE64 = 17,        /* the hash field is that of no digest */

    /* 18 to 29: other identifiers, read as PHC records; pwcheck_check, pwcheck_check_limited and pwcheck_check_any */
    PWCHECK_PHC_NAME = 18,          /* the identifier is no name, or that of a parameter is none */
    PWCHECK_PHC_VALUE_LONG = 19,    /* a value of more than 64 characters */
    PWCHECK_PHC_VALUE = 20,         /* a parameter without '=', a value with a character that none may have or with a
                                     * second '=', or a version that is no plain decimal below 2^32 */
    PWCHECK_PHC_PARAMS_LONG = 21,   /* parameters of more than 127 characters */
    PWCHECK_PHC_SALT_SHORT = 22,    /* fewer than 11 characters */
    PWCHECK_PHC_SALT_LONG = 23,     /* more than 64 characters */
    PWCHECK_PHC_B64 = 24,           /* the salt or the hash is the encoding of no bytes */
    PWCHECK_PHC_HASH_LONG = 25,     /* more than 86 characters */
    PWCHECK_PHC_HASH_SHORT = 26,    /* fewer than 10 bytes */
    PWCHECK_PHC_TRAILING = 27,      /* a field after the hash */
    PWCHECK_NO_HASH = 28,           /* the record has no salt, or no hash */
    PWCHECK_KDF = 29,               /* the key derivation doesn't take the record: see pwcheck(5) */

    PWCHECK_OVER_COST = 30,         /* no verdict: the text is valid, and its cost is above the bound;
                                     * pwcheck_check_limited and pwcheck_check_any alone */

    /* 31 to 57, from version 1.1 on: pwcheck_check_any alone */
    PWCHECK_NO_SCHEME = 31,         /* no scheme has the identifier of the text */
    PWCHECK_MD5_FORMAT = 32,        /* the text of md5-crypt has a fault */
    PWCHECK_BCRYPT_OBSOLETE = 33,   /* $2$ or $2x$, which are obsolete */
    PWCHECK_BCRYPT_COST = 34,       /* a cost outside 4 to 31 */
    PWCHECK_BCRYPT_B64 = 35,        /* the salt and the hash of bcrypt are no encoding */
    PWCHECK_BCRYPT_FORMAT = 36,     /* the text of bcrypt has another fault */
    PWCHECK_YESCRYPT_FLAVOR = 37,   /* another flavor than crypt(3) writes */
    PWCHECK_YESCRYPT_COST = 38,     /* a number of a text $y$ is outside what is taken */
    PWCHECK_YESCRYPT_FORMAT = 39,   /* the text $y$ has another fault */
    PWCHECK_SCRYPT_COST = 40,       /* a number of a text $7$ is outside what is taken */
    PWCHECK_SCRYPT_FORMAT = 41,     /* the text $7$ has another fault */
    PWCHECK_ZERO_BYTE = 42,         /* the password has a zero byte, which bcrypt can't hash */
    PWCHECK_SHA1_COST = 43,         /* the rounds of a text $sha1$ are none of 1 to 4,294,967,295, plainly written */
    PWCHECK_SHA1_B64 = 44,          /* the hash of a text $sha1$ is that of no digest */
    PWCHECK_SHA1_FORMAT = 45,       /* the text $sha1$ has another fault */
    PWCHECK_SCRAM_COST = 46,        /* the rounds of a text of SCRAM are none of 1 to 4,294,967,295, plainly written */
    PWCHECK_SCRAM_B64 = 47,         /* the salt or a key of a text of SCRAM is no Base64 with padding */
    PWCHECK_SCRAM_FORMAT = 48,      /* the text of SCRAM has another fault */
    PWCHECK_NOT_ASCII = 49,         /* the password isn't ASCII, and the text of SCRAM is of prepared passwords */
    PWCHECK_PHPASS_COST = 50,       /* the character of the cost of a text $P$ or $H$ is none of 5 to 9 and A to S */
    PWCHECK_PHPASS_B64 = 51,        /* the hash of a text $P$ or $H$ is that of no digest */
    PWCHECK_PHPASS_FORMAT = 52,     /* the text $P$ or $H$ has another fault */
    PWCHECK_DIGEST_B64 = 53,        /* the salt of a text $smd5$, $ssha$, $ssha256$ or $ssha512$ is no Base64 with padding,
                                     * or the hash is that of no digest */
    PWCHECK_DIGEST_FORMAT = 54,     /* such a text has another fault */
    PWCHECK_MYSQL_COST = 55,        /* the rounds of a text $mysql$ are none of 5,000 to 4,095,000, by three digits */
    PWCHECK_MYSQL_B64 = 56,         /* the hash of a text $mysql$ is that of no digest */
    PWCHECK_MYSQL_FORMAT = 57       /* the text $mysql$ has another fault */
};

/* What the other calls answer. */
enum pwcheck_status {
    PWCHECK_DONE = 0,
    PWCHECK_OUT_OF_RANGE = -1,      /* a number or a length isn't taken; nothing was written */
    PWCHECK_NO_MEMORY = -2,         /* there is no memory for the key; nothing was written */
    PWCHECK_NO_ROOM = -3,           /* the buffer is too short; nothing was written. A maker says so before it hashes;
                                     * PWCHECK_TEXT_MAX bytes are always enough */
    PWCHECK_NOT_BASE64 = -4,        /* the text is the encoding of no bytes */

    /* -5 to -7, from version 1.1 on: the password is refused, and nothing was written. Its user may choose another */
    PWCHECK_REFUSED_LENGTH = -5,    /* more than 4,096 bytes; for bcrypt, of which no more count, more than 72 */
    PWCHECK_REFUSED_UTF8 = -6,      /* it isn't UTF-8 */
    PWCHECK_REFUSED_ZERO = -7,      /* a zero byte, at which crypt(3), whose scheme it is, takes a password to end */

    PWCHECK_NO_RANDOM = -8          /* from version 1.1 on: the system gave no random bytes; nothing was written */
};

/* Alphabets of Base64. */
enum pwcheck_alphabet {
    PWCHECK_BASE64 = 0,             /* RFC 4648, section 4, padded */
    PWCHECK_BASE64_UNPADDED = 1,
    PWCHECK_BASE64_URL = 2,         /* RFC 4648, section 5, padded */
    PWCHECK_BASE64_URL_UNPADDED = 3,
    PWCHECK_BASE64_BCRYPT = 4,      /* "./A-Za-z0-9"; this and the next ones unpadded */
    PWCHECK_BASE64_CRYPT = 5,       /* "./0-9A-Za-z", the high bits first */
    PWCHECK_BASE64_PBKDF2 = 6,      /* "A-Za-z0-9./" */
    PWCHECK_BASE64_SHA_CRYPT = 7    /* "./0-9A-Za-z", the low bits first */
};

/* Lengths in bytes: room for each word and its zero, digests, hash fields, the longest texts (without a zero), of all
 * schemes PWCHECK_TEXT_MAX, the salt of a text but of SHA-crypt, and the longest password of a check. */
#define PWCHECK_WORD_SIZE 18
#define PWCHECK_SHA256_DIGEST_SIZE 32
#define PWCHECK_SHA512_DIGEST_SIZE 64
#define PWCHECK_SHA256_FIELD_SIZE 43
#define PWCHECK_SHA512_FIELD_SIZE 86
#define PWCHECK_SHA256_TEXT_MAX 80
#define PWCHECK_SHA512_TEXT_MAX 123
#define PWCHECK_SCRYPT_TEXT_MAX 93
#define PWCHECK_TEXT_MAX 123
#define PWCHECK_SCRYPT_SALT_SIZE 16
#define PWCHECK_SALT_SIZE 16
#define PWCHECK_PASSWORD_MAX 4096
#define PWCHECK_BCRYPT_PASSWORD_MAX 72

/* What a new text should cost, under the name of the call that makes it (from version 1.1 on; a later version may
 * recommend more). For SHA-crypt and bcrypt these are the defaults of passlib 1.7.4 (bcrypt's is PHP 8.4's too), for
 * scrypt and PBKDF2 what OWASP's Password Storage Cheat Sheet names, for yescrypt what libxcrypt 4.4 makes by default
 * (16 MiB of memory), for Argon2id the second recommended option of RFC 9106, section 4 (64 MiB). */
#define PWCHECK_RECOMMENDED_SHA256_CRYPT_ROUNDS 535000
#define PWCHECK_RECOMMENDED_SHA512_CRYPT_ROUNDS 656000
#define PWCHECK_RECOMMENDED_SCRYPT_LN 17
#define PWCHECK_RECOMMENDED_SCRYPT_R 8
#define PWCHECK_RECOMMENDED_SCRYPT_P 1
#define PWCHECK_RECOMMENDED_BCRYPT_COST 12
#define PWCHECK_RECOMMENDED_YESCRYPT_LN 12
#define PWCHECK_RECOMMENDED_YESCRYPT_R 32
#define PWCHECK_RECOMMENDED_YESCRYPT_T 0
#define PWCHECK_RECOMMENDED_ARGON2ID_MEMORY 65536
#define PWCHECK_RECOMMENDED_ARGON2ID_PASSES 3
#define PWCHECK_RECOMMENDED_ARGON2ID_LANES 4
#define PWCHECK_RECOMMENDED_PBKDF2_SHA256_ROUNDS 600000

/* Checks a password against a stored text, SHA-crypt or a PHC record of scrypt. Compare the answer with
 * PWCHECK_MATCH, and with nothing less. */
PWCHECK_MUST_USE PWCHECK_NONNULL
int32_t pwcheck_check(const uint8_t *password, size_t password_len, const uint8_t *stored, size_t stored_len);

/* The same within a bound on the cost. A valid stored text is answered by PWCHECK_OVER_COST, and no digest or key is
 * computed, where it is SHA-crypt of more than `max_rounds` rounds, or scrypt that mixes more than `max_bytes` bytes,
 * which are 128 r p 2^ln: 16 MiB for ln = 14, r = 8, p = 1. Every other text is answered as by pwcheck_check. */
PWCHECK_MUST_USE PWCHECK_NONNULL
int32_t pwcheck_check_limited(const uint8_t *password, size_t password_len, const uint8_t *stored, size_t stored_len,
                              uint32_t max_rounds, uint64_t max_bytes);

/* The most that a valid stored text may ask for, scheme by scheme (from version 1.1 on). Begin with one of the two macros
 * below, which set the size, and change single numbers. A number that no text reaches bounds nothing. A later version may
 * add numbers at the end: the library bounds nothing by a number that a shorter struct hasn't. */
struct pwcheck_limits {
    uint32_t size;                  /* sizeof(struct pwcheck_limits) */
    uint32_t sha_rounds;            /* rounds of SHA-crypt, 1,000 to 999,999,999, and of sha1-crypt, 1 to 4,294,967,295 */
    uint32_t bcrypt_cost;           /* cost of bcrypt, 4 to 31, and of phpass, 7 to 30: 2^cost turns */
    uint32_t yescrypt_ln;           /* yescrypt: the binary logarithm of N, 2 to 23; the table takes 128 r N bytes */
    uint32_t yescrypt_r;
    uint32_t yescrypt_t;            /* 0 to 1,024: so many turns more than the default */
    uint32_t pbkdf2_rounds;         /* i of PBKDF2, 1 to 10,000,000, and rounds of SCRAM, 1 to 4,294,967,295 */
    uint32_t scrypt_ln;             /* scrypt, of a record or of a text $7$: the table takes 128 r 2^ln bytes */
    uint32_t scrypt_r;
    uint32_t scrypt_p;
    uint32_t argon2_memory;         /* m of Argon2, in KiB, 8 to 2,097,152 */
    uint32_t argon2_passes;         /* t */
    uint32_t argon2_lanes;          /* p */
};
#define PWCHECK_LIMITS_NONE                                                                                       \
    {sizeof(struct pwcheck_limits), UINT32_MAX, UINT32_MAX, UINT32_MAX, UINT32_MAX, UINT32_MAX, UINT32_MAX,       \
     UINT32_MAX, UINT32_MAX, UINT32_MAX, UINT32_MAX, UINT32_MAX, UINT32_MAX}

/* Limits for a login, which a text of every maker below reaches and a text that would take minutes doesn't.
 *     sha_rounds     8 times 656,000, the rounds of passlib 1.7.4
 *     bcrypt_cost    three doublings more than 12, the cost of passlib 1.7.4 and PHP 8.4
 *     yescrypt_..    three doublings of N more than libxcrypt 4.4 makes by default (ln 12, r 32, t 0): 128 MiB
 *     pbkdf2_rounds  8 times 600,000, the rounds of OWASP's Password Storage Cheat Sheet
 *     scrypt_..      the largest ln and p of OWASP's settings (17 and 10); r of libxcrypt's texts $7$ (32)
 *     argon2_..      256 MiB, libsodium's MODERATE; 8 passes, libsodium's SENSITIVE of Argon2i; 8 lanes, argon2-cffi 18.2 */
#define PWCHECK_LIMITS_LOGIN                                                                                      \
    {sizeof(struct pwcheck_limits), 5248000, 15, 15, 32, 0, 4800000, 17, 32, 10, 262144, 8, 8}

/* Checks a password against a stored text of every scheme: SHA-crypt ($5$, $6$), md5-crypt ($1$, $apr1$), bcrypt
 * ($2a$, $2b$, $2y$), bcrypt of a digest ($bcrypt-sha256$, $bcrypt-sha256-hex$, $wp$), sha1-crypt ($sha1$), SCRAM
 * ($scram-sha-256$, $scram-sha-256-raw$), phpass ($P$, $H$), a digest of a password and a salt ($smd5$, $ssha$, $ssha256$,
 * $ssha512$), yescrypt ($y$), scrypt ($7$), or a PHC record of scrypt, PBKDF2 (pbkdf2-sha256, -sha512, pbkdf2-sha1) or
 * Argon2. A valid text that asks for more than a limit is answered by PWCHECK_OVER_COST, and nothing is hashed for it.
 * Compare the answer with PWCHECK_MATCH, and with nothing less. Limits whose size is no multiple of 4 from 4 to 1,024,
 * or that bound a number which this version doesn't know, are PWCHECK_OUT_OF_RANGE, and nothing is read of the text.
 * From version 1.1 on. */
PWCHECK_MUST_USE PWCHECK_NONNULL
int32_t pwcheck_check_any(const uint8_t *password, size_t password_len, const uint8_t *stored, size_t stored_len,
                          const struct pwcheck_limits *limits);

/* The same within PWCHECK_LIMITS_LOGIN: what a login service asks. From version 1.1 on. */
PWCHECK_MUST_USE PWCHECK_NONNULL
int32_t pwcheck_check_login(const uint8_t *password, size_t password_len, const uint8_t *stored, size_t stored_len);

/* Checks a password against a text of the one family alone. It takes an empty salt, and in a salt any characters but
 * '$', which pwcheck_check answers by 7 and 8. Of the answers 0 to 2, 4 and 9 to 17. */
PWCHECK_MUST_USE PWCHECK_NONNULL
int32_t pwcheck_sha256_check(const uint8_t *password, size_t password_len, const uint8_t *stored, size_t stored_len);
PWCHECK_MUST_USE PWCHECK_NONNULL
int32_t pwcheck_sha512_check(const uint8_t *password, size_t password_len, const uint8_t *stored, size_t stored_len);

/* Writes the word of an answer and a zero where `out_len` is greater than the word's length, else nothing; gives the
 * word's length, or 0 for a number that is no answer's (then nothing is written). Words have at most 17 bytes. */
PWCHECK_NONNULL
size_t pwcheck_word(int32_t number, uint8_t *out, size_t out_len);

/* Writes the version of the library, as "1.1", and a zero where `out_len` is greater than its length, else nothing;
 * gives its length. */
PWCHECK_NONNULL
size_t pwcheck_version(uint8_t *out, size_t out_len);

/* scrypt (RFC 7914) with N = 2^ln, for a key of 1 to 64 bytes. ln is at least 1 and below 16 r, r and p are at least
 * 1, p is at most 1,024, r p at most 131,072, and 128 r 2^ln at most 2^28: so ln is at most 20, and at most 18 for r
 * = 8. The password and the salt have less than 2^30 bytes. */
PWCHECK_MUST_USE PWCHECK_NONNULL
int32_t pwcheck_scrypt(const uint8_t *password, size_t password_len, const uint8_t *salt, size_t salt_len,
                       uint32_t ln, uint32_t r, uint32_t p, uint8_t *out, size_t out_len);

/* The whole text `$scrypt$ln=L,r=R,p=P$salt$key` with a key of 32 bytes, without a zero after it; `*len` is its
 * length, and is written only with PWCHECK_DONE. The salt is 16 bytes, which the caller draws at random, the
 * password UTF-8 of at most 4,096 bytes, the numbers are those of pwcheck_scrypt. pwcheck_check answers the text
 * with PWCHECK_MATCH. */
PWCHECK_MUST_USE PWCHECK_NONNULL
int32_t pwcheck_scrypt_text(const uint8_t *password, size_t password_len, const uint8_t *salt, size_t salt_len,
                            uint32_t ln, uint32_t r, uint32_t p, uint8_t *out, size_t out_len, size_t *len);

/* The digest of SHA-256-crypt (out_len = 32) and of SHA-512-crypt (out_len = 64), before it is written as a hash
 * field. The first 16 bytes of the salt count. The rounds are 1,000 to 999,999,999, the password has at most 4,096
 * bytes. */
PWCHECK_MUST_USE PWCHECK_NONNULL
int32_t pwcheck_sha256_crypt(const uint8_t *password, size_t password_len, const uint8_t *salt, size_t salt_len,
                             uint32_t rounds, uint8_t *out, size_t out_len);
PWCHECK_MUST_USE PWCHECK_NONNULL
int32_t pwcheck_sha512_crypt(const uint8_t *password, size_t password_len, const uint8_t *salt, size_t salt_len,
                             uint32_t rounds, uint8_t *out, size_t out_len);

/* The hash field of that digest (out_len = 43 and 86), without a zero after it. */
PWCHECK_MUST_USE PWCHECK_NONNULL
int32_t pwcheck_sha256_crypt_b64(const uint8_t *password, size_t password_len, const uint8_t *salt, size_t salt_len,
                                 uint32_t rounds, uint8_t *out, size_t out_len);
PWCHECK_MUST_USE PWCHECK_NONNULL
int32_t pwcheck_sha512_crypt_b64(const uint8_t *password, size_t password_len, const uint8_t *salt, size_t salt_len,
                                 uint32_t rounds, uint8_t *out, size_t out_len);

/* The whole text, `$5$[rounds=N$]salt$hash` and the same with 6, without a zero after it; `*len` is its length, and
 * is written only with PWCHECK_DONE. The salt has 1 to 16 characters of [./0-9A-Za-z] (this library's own choice),
 * which the caller draws at random; the password is UTF-8 of at most 4,096 bytes. `rounds=N$` is written for other
 * rounds than 5,000. The check of the family and pwcheck_check answer the text with PWCHECK_MATCH. */
PWCHECK_MUST_USE PWCHECK_NONNULL
int32_t pwcheck_sha256_crypt_text(const uint8_t *password, size_t password_len, const uint8_t *salt, size_t salt_len,
                                  uint32_t rounds, uint8_t *out, size_t out_len, size_t *len);
PWCHECK_MUST_USE PWCHECK_NONNULL
int32_t pwcheck_sha512_crypt_text(const uint8_t *password, size_t password_len, const uint8_t *salt, size_t salt_len,
                                  uint32_t rounds, uint8_t *out, size_t out_len, size_t *len);

/* The text of a new password, by the scheme and the cost that are recommended, with a salt that the call draws by
 * getrandom(2): Argon2id with the PWCHECK_RECOMMENDED_ARGON2ID numbers, as pwcheck_argon2id_text makes it. A later
 * version may recommend more. PWCHECK_NO_RANDOM where the system gives no random bytes. From version 1.1 on. */
PWCHECK_MUST_USE PWCHECK_NONNULL
int32_t pwcheck_make(const uint8_t *password, size_t password_len, uint8_t *out, size_t out_len, size_t *len);

/* Whether a text of pwcheck_make is to take the place of a stored text: this one's cost is below what its source
 * recommends (as `pwtool survey` judges), it is of another scheme than Argon2id, or it has no verdict. A text of Argon2id
 * that isn't weak stays, whatever its numbers are. Nothing is hashed. Ask after a match, and then store the text that
 * pwcheck_make makes of the same password. From version 1.1 on. */
PWCHECK_MUST_USE PWCHECK_NONNULL
bool pwcheck_needs_remake(const uint8_t *stored, size_t stored_len);

/* The whole text of bcrypt, yescrypt, Argon2id and PBKDF2 with SHA-256, without a zero after it; `*len` is its length,
 * and is written only with PWCHECK_DONE. The salt is 16 bytes, which the caller draws at random; a key has 32 bytes.
 * A salt of another length and a number that isn't taken are PWCHECK_OUT_OF_RANGE, whatever the password is; then the
 * password is refused by the first of PWCHECK_REFUSED_LENGTH, _UTF8 and _ZERO, this one by bcrypt and yescrypt alone.
 * pwcheck_check_any answers the text with PWCHECK_MATCH, within limits that aren't below the numbers of the call. From
 * version 1.1 on.
 *
 * `$2b$cost$..`, 60 characters, with a cost of 4 to 31: 2^cost turns. */
PWCHECK_MUST_USE PWCHECK_NONNULL
int32_t pwcheck_bcrypt_text(const uint8_t *password, size_t password_len, const uint8_t *salt, size_t salt_len,
                            uint32_t cost, uint8_t *out, size_t out_len, size_t *len);

/* `$y$..`, as crypt(3) writes it, with N = 2^ln and memory of 128 r N bytes: ln is at least 2, r at least 1 and below
 * 2^19, the memory at most 2^30 bytes, and t, so many turns more than the default, at most 1,024. */
PWCHECK_MUST_USE PWCHECK_NONNULL
int32_t pwcheck_yescrypt_text(const uint8_t *password, size_t password_len, const uint8_t *salt, size_t salt_len,
                              uint32_t ln, uint32_t r, uint32_t t, uint8_t *out, size_t out_len, size_t *len);

/* `$argon2id$v=19$m=M,t=T,p=P$salt$key` (RFC 9106), with so many KiB of memory, at least 8 for each lane and at most
 * 2^21, at least one pass over it and one lane; passes times memory is at most 2^24. */
PWCHECK_MUST_USE PWCHECK_NONNULL
int32_t pwcheck_argon2id_text(const uint8_t *password, size_t password_len, const uint8_t *salt, size_t salt_len,
                              uint32_t memory, uint32_t passes, uint32_t lanes, uint8_t *out, size_t out_len,
                              size_t *len);

/* `$pbkdf2-sha256$i=N,l=32$salt$key`, as RustCrypto's pbkdf2 writes it, of 1 to 10,000,000 rounds. */
PWCHECK_MUST_USE PWCHECK_NONNULL
int32_t pwcheck_pbkdf2_sha256_text(const uint8_t *password, size_t password_len, const uint8_t *salt, size_t salt_len,
                                   uint32_t rounds, uint8_t *out, size_t out_len, size_t *len);

/* How many characters encode n bytes, with their padding; 0 for more than SIZE_MAX / 4 bytes and for another
 * alphabet. */
PWCHECK_MUST_USE
size_t pwcheck_base64_encoded_len(uint32_t alphabet, size_t n);

/* How many bytes a text stands for without its padding, which is the room that decoding it wants; 0 for another
 * alphabet. It says nothing of whether the text is an encoding. */
PWCHECK_MUST_USE PWCHECK_NONNULL
size_t pwcheck_base64_decoded_len(uint32_t alphabet, const uint8_t *src, size_t src_len);

/* Decodes the text to the front of `dst` and sets `*len` to the number of bytes. Strict: a text is decoded exactly
 * where it is the one encoding of some bytes. After PWCHECK_NOT_BASE64 the first bytes of `dst`, as many as the text
 * stands for, are unspecified. `*len` is written only with PWCHECK_DONE. Another alphabet is PWCHECK_OUT_OF_RANGE. */
PWCHECK_MUST_USE PWCHECK_NONNULL
int32_t pwcheck_base64_decode(uint32_t alphabet, const uint8_t *src, size_t src_len, uint8_t *dst, size_t dst_len,
                              size_t *len);

/* Encodes to the front of `dst`, without a zero after it, and sets `*len`, with PWCHECK_DONE alone, to the number of
 * characters. More than SIZE_MAX / 4 bytes are PWCHECK_NO_ROOM too, another alphabet is PWCHECK_OUT_OF_RANGE. */
PWCHECK_MUST_USE PWCHECK_NONNULL
int32_t pwcheck_base64_encode(uint32_t alphabet, const uint8_t *src, size_t src_len, uint8_t *dst, size_t dst_len,
                              size_t *len);

/* Whether two lists of bytes are the same, by steps that depend on their lengths alone. */
PWCHECK_MUST_USE PWCHECK_NONNULL
bool pwcheck_same_bytes(const uint8_t *a, size_t a_len, const uint8_t *b, size_t b_len);

#ifdef __cplusplus
}
#endif

#endif
