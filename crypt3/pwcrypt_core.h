/* The proved calls below crypt(3), of crates/pwcrypt_c. A slice is a pointer, which is not null, and a length. */
#ifndef PWCRYPT_CORE_H
#define PWCRYPT_CORE_H

#include <stddef.h>
#include <stdint.h>

/* What pwcrypt_text and pwcrypt_setting answer. crypt3/numbers.py compares these with the definitions. */
enum pwcrypt_status {
    PWCRYPT_DONE = 0,           /* the text stands in out, and *len is its length: no zero stands behind it */
    PWCRYPT_TOO_LONG = -1,      /* the phrase, or a setting of $7$ or $y$: ERANGE */
    PWCRYPT_NO_MEMORY = -2,     /* for scrypt or yescrypt: ENOMEM */
    PWCRYPT_NO_ROOM = -3,       /* out is too short: ERANGE */
    PWCRYPT_NO_SETTING = -4     /* it is no setting, or the method does not take the count or so few bytes: EINVAL */
};

/* Writes the text for a phrase and a setting. Where the answer is not PWCRYPT_DONE, nothing is written. */
int32_t pwcrypt_text(const uint8_t *phrase, size_t phrase_len, const uint8_t *setting, size_t setting_len,
                     uint8_t *out, size_t out_len, size_t *len);

/* Writes the new setting of a prefix, a count and random bytes. Where the answer is not PWCRYPT_DONE, nothing is written. */
int32_t pwcrypt_setting(const uint8_t *prefix, size_t prefix_len, uint64_t count, const uint8_t *bytes, size_t bytes_len,
                        uint8_t *out, size_t out_len, size_t *len);

/* How many random bytes a new setting of a prefix takes where the caller brings none, at most 20; 0 for no method. */
size_t pwcrypt_random_len(const uint8_t *prefix, size_t prefix_len);

/* What a setting is, by the numbers of crypt_checksalt(3). */
int32_t pwcrypt_checksalt(const uint8_t *setting, size_t setting_len);

#endif
