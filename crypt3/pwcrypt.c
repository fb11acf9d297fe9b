/* crypt(3) over the proved calls of pwcrypt_core.h, with the signatures, tokens, limits and sizes of libxcrypt's <crypt.h>.
 *
 * No setting is read here. What stands here is what C alone knows: null pointers, the zeros at the ends of strings, errno, the
 * failure tokens, the sizes of buffers, and where random bytes come from. */
#include <crypt.h>
#include <errno.h>
#include <stdbool.h>
#include <stdlib.h>
#include <string.h>

#include "face.h"
#include "pwcrypt_core.h"

/* The strongest method that is there. */
#define PREFERRED_PREFIX "$y$"

/* The most random bytes that a method draws. */
enum { RANDOM_MAX = 20 };

/* errno for an answer that is not PWCRYPT_DONE */
static int error_of(int32_t status)
{
    switch (status) {
    case PWCRYPT_NO_MEMORY:
        return ENOMEM;
    case PWCRYPT_TOO_LONG:
    case PWCRYPT_NO_ROOM:
        return ERANGE;
    default:
        return EINVAL;
    }
}

/* Writes the failure token, cut to the room that there is: `*0`, or `*1` where the setting begins with `*0`, so that a token is
 * never the text of a setting. The setting is read after that, as libxcrypt does: one that stood in the output is `*0` by then. */
static void write_token(const char *setting, char *output, int size)
{
    if (size <= 0)
        return;
    size_t length = size < 3 ? (size_t)size - 1 : 2;
    memcpy(output, "*0", length);
    output[length] = '\0';
    if (length == 2 && setting && setting[0] == '*' && setting[1] == '0')
        output[1] = '1';
}

static const uint8_t *bytes_of(const char *string)
{
    return (const uint8_t *)string;
}

/* Writes the text into the output of data, or a token, and then errno says why. */
static bool write_text(const char *phrase, const char *setting, struct crypt_data *data)
{
    write_token(setting, data->output, sizeof data->output);
    if (!phrase || !setting) {
        errno = EINVAL;
        return false;
    }
    uint8_t text[CRYPT_OUTPUT_SIZE];
    size_t length = 0;
    int32_t status = pwcrypt_text(bytes_of(phrase), strlen(phrase), bytes_of(setting), strlen(setting), text,
                                  sizeof text - 1, &length);
    face_wipe();
    if (status != PWCRYPT_DONE) {
        errno = error_of(status);
        return false;
    }
    memcpy(data->output, text, length);
    data->output[length] = '\0';
    explicit_bzero(text, sizeof text);
    return true;
}

char *crypt_r(const char *phrase, const char *setting, struct crypt_data *restrict data)
{
    write_text(phrase, setting, data);
    return data->output;
}

/* The data of crypt, which is one for the whole process, as POSIX allows. */
static struct crypt_data own_data;

char *crypt(const char *phrase, const char *setting)
{
    return crypt_r(phrase, setting, &own_data);
}

char *crypt_rn(const char *phrase, const char *setting, void *data, int size)
{
    if (size < 0 || (size_t)size < sizeof(struct crypt_data)) {
        write_token(setting, data, size);
        errno = ERANGE;
        return NULL;
    }
    struct crypt_data *whole = data;
    return write_text(phrase, setting, whole) ? whole->output : NULL;
}

char *crypt_ra(const char *phrase, const char *setting, void **data, int *size)
{
    if (!*data || *size < 0 || (size_t)*size < sizeof(struct crypt_data)) {
        void *whole = realloc(*data, sizeof(struct crypt_data));
        if (!whole)
            return NULL;
        memset(whole, 0, sizeof(struct crypt_data));
        *data = whole;
        *size = sizeof(struct crypt_data);
    }
    /* The last call takes the place of this one, so that it has the whole stack. */
    return crypt_rn(phrase, setting, *data, *size);
}

/* The new setting in `setting`, of which *length is told; or an answer other than 0, the number of errno. */
static int make_setting(const char *prefix, unsigned long count, const char *rbytes, int nrbytes, uint8_t *setting,
                        size_t room, size_t *length)
{
    uint8_t drawn[RANDOM_MAX];
    const uint8_t *bytes = bytes_of(rbytes);
    /* libxcrypt takes a negative number for a huge one, and reads on behind the bytes. */
    size_t bytes_len = nrbytes < 0 ? 0 : (size_t)nrbytes;
    if (!rbytes) {
        bytes = drawn;
        bytes_len = pwcrypt_random_len(bytes_of(prefix), strlen(prefix));
        if (bytes_len == 0 || bytes_len > sizeof drawn)
            return EINVAL;
        if (!face_draw(drawn, bytes_len))
            return errno;
    }
    int32_t status = pwcrypt_setting(bytes_of(prefix), strlen(prefix), count, bytes, bytes_len, setting, room, length);
    explicit_bzero(drawn, sizeof drawn);
    return status == PWCRYPT_DONE ? 0 : error_of(status);
}

char *crypt_gensalt_rn(const char *prefix, unsigned long count, const char *rbytes, int nrbytes, char *output, int size)
{
    write_token(NULL, output, size);
    if (size < 3) {
        errno = ERANGE;
        return NULL;
    }
    uint8_t setting[CRYPT_GENSALT_OUTPUT_SIZE];
    size_t length = 0;
    int error = make_setting(prefix ? prefix : PREFERRED_PREFIX, count, rbytes, nrbytes, setting, sizeof setting, &length);
    if (!error && length >= (size_t)size)
        error = ERANGE;
    if (error) {
        errno = error;
        return NULL;
    }
    memcpy(output, setting, length);
    output[length] = '\0';
    return output;
}

char *crypt_gensalt(const char *prefix, unsigned long count, const char *rbytes, int nrbytes)
{
    static char output[CRYPT_GENSALT_OUTPUT_SIZE];
    return crypt_gensalt_rn(prefix, count, rbytes, nrbytes, output, sizeof output);
}

char *crypt_gensalt_ra(const char *prefix, unsigned long count, const char *rbytes, int nrbytes)
{
    char *output = malloc(CRYPT_GENSALT_OUTPUT_SIZE);
    if (!output)
        return NULL;
    if (crypt_gensalt_rn(prefix, count, rbytes, nrbytes, output, CRYPT_GENSALT_OUTPUT_SIZE))
        return output;
    int error = errno;
    free(output);
    errno = error;
    return NULL;
}

int crypt_checksalt(const char *setting)
{
    return setting ? pwcrypt_checksalt(bytes_of(setting), strlen(setting)) : CRYPT_SALT_INVALID;
}

const char *crypt_preferred_method(void)
{
    return PREFERRED_PREFIX;
}

/* The versions that programs ask for which were linked against glibc's own libcrypt. A new link gets the others. */
char *pwcrypt_old_crypt(const char *phrase, const char *setting);
char *pwcrypt_old_crypt_r(const char *phrase, const char *setting, struct crypt_data *restrict data);

__asm__(".symver pwcrypt_old_crypt, crypt@GLIBC_2.2.5");
__asm__(".symver pwcrypt_old_crypt_r, crypt_r@GLIBC_2.2.5");

char *pwcrypt_old_crypt(const char *phrase, const char *setting)
{
    return crypt(phrase, setting);
}

char *pwcrypt_old_crypt_r(const char *phrase, const char *setting, struct crypt_data *restrict data)
{
    return crypt_r(phrase, setting, data);
}
