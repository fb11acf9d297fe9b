/* Eight threads that check and make texts of every scheme with libpwcheck at once: for ThreadSanitizer and valgrind. Each answer is compared. */
#include <pthread.h>
#include <pwcheck.h>
#include <stdio.h>
#include <stdlib.h>
#include <string.h>

#define NEED(condition)                                                                       \
    do {                                                                                      \
        if (!(condition)) {                                                                   \
            fprintf(stderr, "threads.c:%d: %s\n", __LINE__, #condition);                      \
            exit(1);                                                                          \
        }                                                                                     \
    } while (0)

/* Texts of the password "pw"; the first is not. */
static const struct {
    const char *text;
    int32_t answer;
} ROWS[] = {
    {"$5$saltstring$5B8vYYiY.CVt1RlTTf8KbXBH3hsxY/GNooZaBBGWEc5", PWCHECK_MISMATCH},
    {"$5$rounds=1000$saltsaltsaltsalt$b70IZgXpYBdEyQ9arjbSW5KAXdl57mX1OCyvh8WRHNC", PWCHECK_MATCH},
    {"$6$rounds=1000$saltsaltsaltsalt$4x9kufhwkJaKtf4seIqE/TZk6G/DqOFk3orVgpNzyiLnBpKBJ14TokK23FWMAFQcK07nQ3huf2NpOJsQOFudB/", PWCHECK_MATCH},
    {"$1$saltsalt$6SNdNaZLKst2LlSm7oPPL1", PWCHECK_MATCH},
    {"$2b$04$abcdefghijklmnopqrstuuyvPXIbu7xe6/CED2DzX8z6Si09MlzlW", PWCHECK_MATCH},
    {"$7$4/..../....saltsalt$Z/4xy7iP6BmJW9gLqd81LpC5qU1GP4WZHNIq28Q/Ma5", PWCHECK_MATCH},
    {"$y$j/.$saltsaltsaltsalt$0QK5vjXWIOINdNK61h/g1nAOvWo0exKNSvV/Cie1u4D", PWCHECK_MATCH},
    {"$9$x", PWCHECK_NO_SCHEME},
};

static const uint8_t PASSWORD[] = "pw";
static const uint8_t SALT[PWCHECK_SALT_SIZE] = "0123456789abcde";

static void made(int32_t status, const uint8_t *text, size_t len)
{
    static const struct pwcheck_limits NONE = PWCHECK_LIMITS_NONE;
    NEED(status == PWCHECK_DONE);
    NEED(pwcheck_check_any(PASSWORD, 2, text, len, &NONE) == PWCHECK_MATCH);
    NEED(pwcheck_check_any(PASSWORD, 1, text, len, &NONE) == PWCHECK_MISMATCH);
}

static void *calls(void *ignored)
{
    uint8_t text[PWCHECK_TEXT_MAX];
    size_t len;
    int32_t status;
    (void)ignored;
    for (size_t i = 0; i < sizeof ROWS / sizeof *ROWS; i++)
        NEED(pwcheck_check_login(PASSWORD, 2, (const uint8_t *)ROWS[i].text, strlen(ROWS[i].text)) == ROWS[i].answer);
    status = pwcheck_bcrypt_text(PASSWORD, 2, SALT, sizeof SALT, 4, text, sizeof text, &len);
    made(status, text, len);
    status = pwcheck_yescrypt_text(PASSWORD, 2, SALT, sizeof SALT, 2, 1, 0, text, sizeof text, &len);
    made(status, text, len);
    status = pwcheck_argon2id_text(PASSWORD, 2, SALT, sizeof SALT, 64, 2, 3, text, sizeof text, &len);
    made(status, text, len);
    status = pwcheck_pbkdf2_sha256_text(PASSWORD, 2, SALT, sizeof SALT, 3, text, sizeof text, &len);
    made(status, text, len);
    status = pwcheck_scrypt_text(PASSWORD, 2, SALT, sizeof SALT, 4, 2, 3, text, sizeof text, &len);
    made(status, text, len);
    status = pwcheck_sha256_crypt_text(PASSWORD, 2, (const uint8_t *)"salt", 4, 1000, text, sizeof text, &len);
    made(status, text, len);
    NEED(pwcheck_needs_remake(text, len));
    return NULL;
}

int main(void)
{
    pthread_t threads[8];
    for (size_t i = 0; i < 8; i++)
        NEED(!pthread_create(&threads[i], NULL, calls, NULL));
    for (size_t i = 0; i < 8; i++)
        NEED(!pthread_join(threads[i], NULL));
    puts("threads.c: eight threads, all as it has to be");
    return 0;
}
