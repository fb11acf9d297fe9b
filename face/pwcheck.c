/* The face of libpwcheck: each call of pwcheck.h that takes a password calls the proved one and then wipes what it left.
 *
 * The link gives the proved calls the names core_.. in the place of pwcheck_... What else stands here is what C alone knows: the size of
 * struct pwcheck_limits as the caller has it, and where random bytes come from. */
#include <string.h>

#include "face.h"
#include "pwcheck.h"

typedef const uint8_t *bytes_in;

/* A call with its proved one, whose answer it gives. */
#define WIPED(name, parameters, arguments)                  \
    int32_t core_##name parameters;                         \
    int32_t pwcheck_##name parameters                       \
    {                                                       \
        int32_t answer = core_##name arguments;             \
        face_wipe();                                        \
        return answer;                                      \
    }

#define CHECKED bytes_in password, size_t password_len, bytes_in stored, size_t stored_len
#define CHECKS password, password_len, stored, stored_len
#define SALTED bytes_in password, size_t password_len, bytes_in salt, size_t salt_len
#define SALTS password, password_len, salt, salt_len
#define KEY uint8_t *out, size_t out_len
#define KEYS out, out_len
#define TEXT uint8_t *out, size_t out_len, size_t *len
#define TEXTS out, out_len, len

WIPED(check, (CHECKED), (CHECKS))
WIPED(check_limited, (CHECKED, uint32_t max_rounds, uint64_t max_bytes), (CHECKS, max_rounds, max_bytes))
WIPED(sha256_check, (CHECKED), (CHECKS))
WIPED(sha512_check, (CHECKED), (CHECKS))
WIPED(scrypt, (SALTED, uint32_t ln, uint32_t r, uint32_t p, KEY), (SALTS, ln, r, p, KEYS))
WIPED(scrypt_text, (SALTED, uint32_t ln, uint32_t r, uint32_t p, TEXT), (SALTS, ln, r, p, TEXTS))
WIPED(sha256_crypt, (SALTED, uint32_t rounds, KEY), (SALTS, rounds, KEYS))
WIPED(sha512_crypt, (SALTED, uint32_t rounds, KEY), (SALTS, rounds, KEYS))
WIPED(sha256_crypt_b64, (SALTED, uint32_t rounds, KEY), (SALTS, rounds, KEYS))
WIPED(sha512_crypt_b64, (SALTED, uint32_t rounds, KEY), (SALTS, rounds, KEYS))
WIPED(sha256_crypt_text, (SALTED, uint32_t rounds, TEXT), (SALTS, rounds, TEXTS))
WIPED(sha512_crypt_text, (SALTED, uint32_t rounds, TEXT), (SALTS, rounds, TEXTS))
WIPED(bcrypt_text, (SALTED, uint32_t cost, TEXT), (SALTS, cost, TEXTS))
WIPED(yescrypt_text, (SALTED, uint32_t ln, uint32_t r, uint32_t t, TEXT), (SALTS, ln, r, t, TEXTS))
WIPED(argon2id_text, (SALTED, uint32_t memory, uint32_t passes, uint32_t lanes, TEXT), (SALTS, memory, passes, lanes, TEXTS))
WIPED(pbkdf2_sha256_text, (SALTED, uint32_t rounds, TEXT), (SALTS, rounds, TEXTS))

/* The limits as the proved call takes them: the numbers of struct pwcheck_limits after its size. */
enum { LIMIT_COUNT = (sizeof(struct pwcheck_limits) - sizeof(uint32_t)) / sizeof(uint32_t), LIMITS_SIZE_MAX = 1024 };
struct core_limits {
    uint32_t numbers[LIMIT_COUNT];
};
int32_t core_check_any(CHECKED, const struct core_limits *limits);

/* Reads the limits of a caller whose struct has another size than this library's. A number that the caller's struct hasn't bounds
 * nothing. False where the size is none of such a struct, or where it bounds a number that this library doesn't know. */
static bool read_limits(const struct pwcheck_limits *limits, struct core_limits *read)
{
    uint32_t size = limits->size;
    if (size < sizeof size || size > LIMITS_SIZE_MAX || size % sizeof(uint32_t) != 0)
        return false;
    size_t count = size / sizeof(uint32_t) - 1;
    for (size_t i = 0; i < LIMIT_COUNT; i++)
        read->numbers[i] = UINT32_MAX;
    for (size_t i = 0; i < count; i++) {
        uint32_t number;
        memcpy(&number, (const char *)limits + (i + 1) * sizeof number, sizeof number);
        if (i < LIMIT_COUNT)
            read->numbers[i] = number;
        else if (number != UINT32_MAX)
            return false;
    }
    return true;
}

int32_t pwcheck_check_any(CHECKED, const struct pwcheck_limits *limits)
{
    struct core_limits read;
    if (!read_limits(limits, &read))
        return PWCHECK_OUT_OF_RANGE;
    int32_t answer = core_check_any(CHECKS, &read);
    face_wipe();
    return answer;
}

int32_t pwcheck_check_login(CHECKED)
{
    static const struct pwcheck_limits limits = PWCHECK_LIMITS_LOGIN;
    return pwcheck_check_any(CHECKS, &limits);
}

int32_t pwcheck_make(bytes_in password, size_t password_len, TEXT)
{
    uint8_t salt[PWCHECK_SALT_SIZE];
    if (!face_draw(salt, sizeof salt))
        return PWCHECK_NO_RANDOM;
    return pwcheck_argon2id_text(password, password_len, salt, sizeof salt, PWCHECK_RECOMMENDED_ARGON2ID_MEMORY,
                                 PWCHECK_RECOMMENDED_ARGON2ID_PASSES, PWCHECK_RECOMMENDED_ARGON2ID_LANES, TEXTS);
}
