/* How much memory the calls of libpwcheck take: none where pwcheck.h says so, and none for a text above its limit or for a buffer that is
 * too short. Where a request is refused, the answer says it and nothing was written. Large tables are on huge pages, and go back whole. To be
 * linked with --wrap=malloc,--wrap=mmap,--wrap=munmap,--wrap=madvise, which the library calls by these names. */
#include <errno.h>
#include <pwcheck.h>
#include <stdio.h>
#include <stdlib.h>
#include <string.h>
#include <sys/mman.h>
#include <time.h>

static int requests, refused = -1;
/* The bytes that are mapped, those for which huge pages were asked, and whether the kernel has none. */
static size_t mapped, advised;
static bool without_huge_pages;

void *__real_malloc(size_t size);
void *__wrap_malloc(size_t size);
void *__real_mmap(void *at, size_t size, int protection, int flags, int file, off_t place);
void *__wrap_mmap(void *at, size_t size, int protection, int flags, int file, off_t place);
int __real_munmap(void *at, size_t size);
int __wrap_munmap(void *at, size_t size);
int __real_madvise(void *at, size_t size, int advice);
int __wrap_madvise(void *at, size_t size, int advice);

void *__wrap_malloc(size_t size)
{
    return requests++ == refused || refused == -2 ? NULL : __real_malloc(size);
}

void *__wrap_mmap(void *at, size_t size, int protection, int flags, int file, off_t place)
{
    if (refused == -2)
        return MAP_FAILED;
    requests++;
    mapped += size;
    return __real_mmap(at, size, protection, flags, file, place);
}

int __wrap_munmap(void *at, size_t size)
{
    mapped -= size;
    return __real_munmap(at, size);
}

int __wrap_madvise(void *at, size_t size, int advice)
{
    advised += advice == MADV_HUGEPAGE ? size : 0;
    if (!without_huge_pages)
        return __real_madvise(at, size, advice);
    errno = EINVAL;
    return -1;
}

#define NEED(condition)                                                                       \
    do {                                                                                      \
        if (!(condition)) {                                                                   \
            printf("memory.c:%d: %s (%d requests)\n", __LINE__, #condition, requests);        \
            exit(1);                                                                          \
        }                                                                                     \
    } while (0)
/* A call that answers so, and asks for memory so often. */
#define TAKES(count, wanted, call) (requests = 0, NEED_ANSWER((call) == (wanted)), NEED_ANSWER(requests == (count)), calls++)
#define NEED_ANSWER(condition) ((condition) ? (void)0 : (printf("memory.c:%d: %s (%d requests)\n", __LINE__, #condition, requests), exit(1)))

static int calls;
static const uint8_t PASSWORD[] = "pw", SALT[PWCHECK_SALT_SIZE] = "0123456789abcde";
static const struct pwcheck_limits NONE = PWCHECK_LIMITS_NONE;
static uint8_t out[PWCHECK_TEXT_MAX];
static size_t len;

static int32_t any(const char *text)
{
    return pwcheck_check_any(PASSWORD, 2, (const uint8_t *)text, strlen(text), &NONE);
}

static int32_t login(const char *text)
{
    return pwcheck_check_login(PASSWORD, 2, (const uint8_t *)text, strlen(text));
}

static const char SHA256[] = "$5$rounds=1000$saltsaltsaltsalt$b70IZgXpYBdEyQ9arjbSW5KAXdl57mX1OCyvh8WRHNC";
static const char YESCRYPT[] = "$y$j/.$saltsaltsaltsalt$0QK5vjXWIOINdNK61h/g1nAOvWo0exKNSvV/Cie1u4D";
static const char SCRYPT_CRYPT[] = "$7$4/..../....saltsalt$Z/4xy7iP6BmJW9gLqd81LpC5qU1GP4WZHNIq28Q/Ma5";

static void without_memory(void)
{
    TAKES(0, PWCHECK_MATCH, any(SHA256));
    TAKES(0, PWCHECK_MATCH, login(SHA256));
    TAKES(0, PWCHECK_MATCH, pwcheck_check(PASSWORD, 2, (const uint8_t *)SHA256, sizeof SHA256 - 1));
    TAKES(0, PWCHECK_MATCH, pwcheck_sha256_check(PASSWORD, 2, (const uint8_t *)SHA256, sizeof SHA256 - 1));
    TAKES(0, PWCHECK_MATCH, any("$6$rounds=1000$saltsaltsaltsalt$4x9kufhwkJaKtf4seIqE/TZk6G/DqOFk3orVgpNzyiLnBpKBJ14TokK23FWMAFQcK07nQ3huf2NpOJsQOFudB/"));
    TAKES(0, PWCHECK_MATCH, any("$1$saltsalt$6SNdNaZLKst2LlSm7oPPL1"));
    TAKES(0, PWCHECK_MATCH, any("$2b$04$abcdefghijklmnopqrstuuyvPXIbu7xe6/CED2DzX8z6Si09MlzlW"));
    TAKES(0, PWCHECK_MISMATCH, any("$pbkdf2-sha256$i=3,l=32$c2FsdHNhbHRzYWx0$sVaWem31qy3rw+Ldi3plA/XzhMSNi9/XHnnD1Ytj05o"));
    TAKES(0, PWCHECK_NO_SCHEME, any("$9$x"));
    TAKES(0, PWCHECK_YESCRYPT_FORMAT, any("$y$j/.$salt$x"));
    TAKES(0, PWCHECK_SCRYPT_FORMAT, any("$7$4/..../...."));
    TAKES(0, PWCHECK_PHC_SALT_SHORT, any("$scrypt$ln=4$short"));
    TAKES(0, PWCHECK_DONE, pwcheck_bcrypt_text(PASSWORD, 2, SALT, sizeof SALT, 4, out, sizeof out, &len));
    TAKES(0, PWCHECK_DONE, pwcheck_pbkdf2_sha256_text(PASSWORD, 2, SALT, sizeof SALT, 3, out, sizeof out, &len));
    TAKES(0, PWCHECK_DONE, pwcheck_sha256_crypt_text(PASSWORD, 2, (const uint8_t *)"salt", 4, 1000, out, sizeof out, &len));
    TAKES(0, PWCHECK_DONE, pwcheck_sha512_crypt_text(PASSWORD, 2, (const uint8_t *)"salt", 4, 1000, out, sizeof out, &len));
    TAKES(0, PWCHECK_OUT_OF_RANGE, pwcheck_argon2id_text(PASSWORD, 2, SALT, 15, 64, 1, 1, out, sizeof out, &len));
    TAKES(0, PWCHECK_REFUSED_ZERO, pwcheck_yescrypt_text((const uint8_t *)"p\0w", 3, SALT, sizeof SALT, 2, 1, 0, out, sizeof out, &len));
    TAKES(0, true, pwcheck_needs_remake((const uint8_t *)YESCRYPT, sizeof YESCRYPT - 1));
    TAKES(0, true, pwcheck_same_bytes(PASSWORD, 2, PASSWORD, 2));
    TAKES(0, PWCHECK_DONE, pwcheck_base64_encode(PWCHECK_BASE64, SALT, 15, out, sizeof out, &len));
    TAKES(0, PWCHECK_DONE, pwcheck_base64_decode(PWCHECK_BASE64, (const uint8_t *)"AAAA", 4, out, sizeof out, &len));
}

/* Texts above a limit of a login: each would take memory, or time that the clock shows. */
static void above_a_limit(void)
{
    static const char *const DEAR[] = {
        "$5$rounds=5248001$abcdefgh$qXUmNmbLEOn5YPWvewYoPCAAHp5vzLn73xcpCUC256C",
        "$6$rounds=5248001$saltsaltsaltsalt$4x9kufhwkJaKtf4seIqE/TZk6G/DqOFk3orVgpNzyiLnBpKBJ14TokK23FWMAFQcK07nQ3huf2NpOJsQOFudB/",
        "$2b$16$abcdefghijklmnopqrstuu2r9OfJnfCsdneAXAGHnS4UpFFP8WIrW",
        "$2y$31$abcdefghijklmnopqrstuu2r9OfJnfCsdneAXAGHnS4UpFFP8WIrW",
        "$pbkdf2-sha256$i=4800001,l=32$c2FsdHNhbHRzYWx0$sVaWem31qy3rw+Ldi3plA/XzhMSNi9/XHnnD1Ytj05o",
        "$scrypt$ln=18,r=8,p=1$c2FsdHNhbHRzYWx0$09/untC+3Bg44eiJQ8bqhTXgE2ali+ykLaojkJZlF9U",
        "$scrypt$ln=4,r=33,p=1$c2FsdHNhbHRzYWx0$09/untC+3Bg44eiJQ8bqhTXgE2ali+ykLaojkJZlF9U",
        "$argon2id$v=19$m=262145,t=1,p=1$c2FsdHNhbHRzYWx0$Sm3MnLdCFk0Af+croKgebRoqqmhbKd88iiW3yUOXn78",
        "$argon2i$v=19$m=96,t=9,p=1$c2FsdHNhbHRzYWx0$Sm3MnLdCFk0Af+croKgebRoqqmhbKd88iiW3yUOXn78",
        "$argon2d$v=19$m=96,t=1,p=9$c2FsdHNhbHRzYWx0$Sm3MnLdCFk0Af+croKgebRoqqmhbKd88iiW3yUOXn78",
        "$y$jD5$saltsaltsaltsalt$0QK5vjXWIOINdNK61h/g1nAOvWo0exKNSvV/Cie1u4D",
        "$7$G6..../....saltsalt$Z/4xy7iP6BmJW9gLqd81LpC5qU1GP4WZHNIq28Q/Ma5",
    };
    for (size_t i = 0; i < sizeof DEAR / sizeof *DEAR; i++) {
        clock_t start = clock();
        TAKES(0, PWCHECK_OVER_COST, login(DEAR[i]));
        NEED(clock() - start < CLOCKS_PER_SEC / 4);
    }
    const char *scrypt = DEAR[5], *sha512 = DEAR[1];
    clock_t start = clock();
    TAKES(0, PWCHECK_OVER_COST, pwcheck_check_limited(PASSWORD, 2, (const uint8_t *)scrypt, strlen(scrypt), UINT32_MAX, 1 << 24));
    TAKES(0, PWCHECK_OVER_COST, pwcheck_check_limited(PASSWORD, 2, (const uint8_t *)sha512, strlen(sha512), 5248000, UINT64_MAX));
    NEED(clock() - start < CLOCKS_PER_SEC / 4);
}

/* Makers with a buffer one byte too short: the texts would take up to 2 GiB, and minutes to hours. None is begun. */
static void short_buffers(void)
{
    static const uint8_t SHA_SALT[] = "saltsaltsaltsal";
    clock_t start = clock();
    memset(out, 'x', sizeof out);
    len = 77;
    TAKES(0, PWCHECK_NO_ROOM, pwcheck_argon2id_text(PASSWORD, 2, SALT, sizeof SALT, 2097152, 8, 1, out, 98, &len));
    TAKES(0, PWCHECK_NO_ROOM, pwcheck_make(PASSWORD, 2, out, 96, &len));
    TAKES(0, PWCHECK_NO_ROOM, pwcheck_yescrypt_text(PASSWORD, 2, SALT, sizeof SALT, 18, 32, 1024, out, 76, &len));
    TAKES(0, PWCHECK_NO_ROOM, pwcheck_scrypt_text(PASSWORD, 2, SALT, sizeof SALT, 17, 8, 1024, out, 90, &len));
    TAKES(0, PWCHECK_NO_ROOM, pwcheck_bcrypt_text(PASSWORD, 2, SALT, sizeof SALT, 31, out, 59, &len));
    TAKES(0, PWCHECK_NO_ROOM, pwcheck_pbkdf2_sha256_text(PASSWORD, 2, SALT, sizeof SALT, 10000000, out, 96, &len));
    TAKES(0, PWCHECK_NO_ROOM, pwcheck_sha256_crypt_text(PASSWORD, 2, SHA_SALT, 15, 999999999, out, 78, &len));
    TAKES(0, PWCHECK_NO_ROOM, pwcheck_sha512_crypt_text(PASSWORD, 2, SHA_SALT, 15, 999999999, out, 121, &len));
    NEED(clock() - start < CLOCKS_PER_SEC / 4);
    NEED(len == 77 && out[0] == 'x' && !memcmp(out, out + 1, sizeof out - 1));
    /* A byte more is enough. */
    TAKES(1, PWCHECK_DONE, pwcheck_argon2id_text(PASSWORD, 2, SALT, sizeof SALT, 64, 2, 3, out, 94, &len));
    NEED(len == 94);
}

/* A table of so many KiB is in one mapping, for which huge pages are asked, or in none; it goes back whole. A kernel without huge pages
 * changes no answer. */
static void on_huge_pages(uint32_t memory, size_t wanted)
{
    for (int lacks = 0; lacks < 2; lacks++) {
        without_huge_pages = lacks;
        advised = 0;
        errno = 0;
        TAKES(1, PWCHECK_DONE, pwcheck_argon2id_text(PASSWORD, 2, SALT, sizeof SALT, memory, 1, 1, out, sizeof out, &len));
        NEED(advised == wanted && mapped == 0 && errno == 0);
    }
    without_huge_pages = false;
}

static void huge_pages(void)
{
    on_huge_pages(2044, 0);
    on_huge_pages(2048, 2 << 20);
    on_huge_pages(2300, 2300 << 10);
    on_huge_pages(2304, 4 << 20);
    on_huge_pages(19456, 20 << 20);
    on_huge_pages(24576, 24 << 20);
}

/* With each request refused in turn, and with all of them. */
static void refused_memory(void)
{
    for (refused = -2; refused < 8; refused++) {
        if (refused == -1)
            continue;
        requests = 0;
        int32_t y = login(YESCRYPT);
        NEED(y == (refused == -2 || refused < requests ? PWCHECK_OUT_OF_MEMORY : PWCHECK_MATCH));
        requests = 0;
        int32_t s = any(SCRYPT_CRYPT);
        NEED(s == (refused == -2 || refused < requests ? PWCHECK_OUT_OF_MEMORY : PWCHECK_MATCH));
        memset(out, 'x', sizeof out);
        len = 77;
        requests = 0;
        int32_t made = refused == -2 ? pwcheck_make(PASSWORD, 2, out, sizeof out, &len)
                                     : pwcheck_argon2id_text(PASSWORD, 2, SALT, sizeof SALT, 64, 2, 3, out, sizeof out, &len);
        NEED(made == (refused == -2 || refused < requests ? PWCHECK_NO_MEMORY : PWCHECK_DONE));
        NEED(made == PWCHECK_DONE || (len == 77 && out[0] == 'x' && !memcmp(out, out + 1, sizeof out - 1)));
        requests = 0;
        uint8_t key[32] = {7};
        int32_t derived = pwcheck_scrypt(PASSWORD, 2, SALT, 4, 4, 3, 2, key, sizeof key);
        NEED(derived == (refused == -2 || refused < requests ? PWCHECK_NO_MEMORY : PWCHECK_DONE));
        NEED(derived == PWCHECK_DONE || (key[0] == 7 && key[1] == 0 && !memcmp(key + 1, key + 2, sizeof key - 2)));
        calls += 4;
    }
    refused = -1;
}

int main(void)
{
    requests = 0;
    NEED(login(YESCRYPT) == PWCHECK_MATCH && requests > 0);
    without_memory();
    above_a_limit();
    short_buffers();
    huge_pages();
    refused_memory();
    printf("memory.c: %d calls take the memory that pwcheck.h says\n", calls);
    return 0;
}
