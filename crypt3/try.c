/* Calls each function of libpwcrypt, for a run under sanitizers or valgrind: phrases of each length, null pointers, each size of a
 * buffer, strings at the end of a page, eight threads, a thread of the least stack, little memory, and random bytes that are known.
 * It ends with 1 where an answer is not what it has to be. */
#include <crypt.h>
#include <errno.h>
#include <pthread.h>
#include <stdbool.h>
#include <stdio.h>
#include <stdlib.h>
#include <string.h>
#include <sys/mman.h>
#include <sys/random.h>
#include <sys/resource.h>
#include <sys/syscall.h>
#include <sys/wait.h>
#include <unistd.h>

/* Sanitizers take address space and stack of their own. */
#if defined __SANITIZE_ADDRESS__ || defined __SANITIZE_THREAD__
enum { SANITIZED = 1 };
#else
enum { SANITIZED = 0 };
#endif

/* PTHREAD_STACK_MIN of x86-64. */
enum { SMALL_STACK = 16384 };

#define NEED(condition)                                                       \
    do {                                                                      \
        if (!(condition)) {                                                   \
            fprintf(stderr, "try.c:%d: %s\n", __LINE__, #condition);          \
            exit(1);                                                          \
        }                                                                     \
    } while (0)

/* Texts of libxcrypt 4.4.33 for the phrase `pw`. */
static const char *const TEXTS[] = {
    "$1$saltsalt$6SNdNaZLKst2LlSm7oPPL1",
    "$5$rounds=1000$saltsaltsaltsalt$b70IZgXpYBdEyQ9arjbSW5KAXdl57mX1OCyvh8WRHNC",
    "$6$rounds=1000$saltsaltsaltsalt$4x9kufhwkJaKtf4seIqE/TZk6G/DqOFk3orVgpNzyiLnBpKBJ14TokK23FWMAFQcK07nQ3huf2NpOJsQOFudB/",
    "$2b$04$abcdefghijklmnopqrstuuyvPXIbu7xe6/CED2DzX8z6Si09MlzlW",
    "$7$4/..../....saltsalt$Z/4xy7iP6BmJW9gLqd81LpC5qU1GP4WZHNIq28Q/Ma5",
    "$y$j/.$saltsaltsaltsalt$0QK5vjXWIOINdNK61h/g1nAOvWo0exKNSvV/Cie1u4D",
    "$sha1$1019$saltsalt$gJltIDRcsQ261rW9vde97WX7bHb5",
};
enum { TEXT_COUNT = sizeof TEXTS / sizeof TEXTS[0] };

static void try_texts(void)
{
    static struct crypt_data data;
    for (int i = 0; i < TEXT_COUNT; i++) {
        NEED(!strcmp(crypt_r("pw", TEXTS[i], &data), TEXTS[i]));
        NEED(!strcmp(crypt("pw", TEXTS[i]), TEXTS[i]));
        NEED(strcmp(crypt_r("pW", TEXTS[i], &data), TEXTS[i]));
        NEED(crypt_rn("pw", TEXTS[i], &data, sizeof data) == data.output);
        NEED(crypt_checksalt(TEXTS[i]) == (strchr("15s", TEXTS[i][1]) ? CRYPT_SALT_METHOD_LEGACY : CRYPT_SALT_OK));
    }
    NEED(!strcmp(crypt_preferred_method(), "$y$"));
}

static void try_phrases(void)
{
    static struct crypt_data data;
    for (size_t n = 0; n <= 600; n++) {
        char *phrase = malloc(n + 1);
        NEED(phrase);
        memset(phrase, 'a', n);
        phrase[n] = '\0';
        errno = 0;
        char *text = crypt_r(phrase, TEXTS[n % 2 ? 0 : 4], &data);
        NEED(n < 512 ? text[0] == '$' && errno == 0 : !strcmp(text, "*0") && errno == ERANGE);
        free(phrase);
    }
}

static void try_null(void)
{
    static struct crypt_data data;
    const char *const pairs[][2] = {{NULL, "$1$x"}, {"pw", NULL}, {NULL, NULL}, {NULL, "*0"}, {"pw", "*0"}, {"pw", ""}};
    for (size_t i = 0; i < sizeof pairs / sizeof pairs[0]; i++) {
        const char *token = pairs[i][1] && !strcmp(pairs[i][1], "*0") ? "*1" : "*0";
        errno = 0;
        NEED(!strcmp(crypt_r(pairs[i][0], pairs[i][1], &data), token) && errno == EINVAL);
        NEED(!strcmp(crypt(pairs[i][0], pairs[i][1]), token));
        NEED(!crypt_rn(pairs[i][0], pairs[i][1], &data, sizeof data) && !strcmp(data.output, token));
        void *memory = NULL;
        int size = 0;
        NEED(!crypt_ra(pairs[i][0], pairs[i][1], &memory, &size) && size == sizeof data && !strcmp(memory, token));
        free(memory);
    }
    NEED(crypt_checksalt(NULL) == CRYPT_SALT_INVALID);
}

static void try_sizes(void)
{
    for (int size = -1; size <= (int)sizeof(struct crypt_data) + 1; size += size < 8 || size > (int)sizeof(struct crypt_data) - 3 ? 1 : 997) {
        char *room = malloc(size > 0 ? size : 1);
        NEED(room);
        errno = 0;
        char *text = crypt_rn("pw", TEXTS[0], room, size);
        NEED(size >= (int)sizeof(struct crypt_data) ? text && !strcmp(text, TEXTS[0]) : !text && errno == ERANGE);
        free(room);
    }
    static const char *const PREFIXES[] = {"$1$", "$5$", "$6$", "$2a$", "$2b$", "$2y$", "$7$", "$y$", "$sha1", NULL, "$9$"};
    for (size_t i = 0; i < sizeof PREFIXES / sizeof PREFIXES[0]; i++)
        for (int size = -1; size <= 200; size++) {
            char *room = malloc(size > 0 ? size : 1);
            NEED(room);
            char *setting = crypt_gensalt_rn(PREFIXES[i], 0, NULL, 0, room, size);
            NEED(size < 60 || (setting != NULL) == (i != 10));
            NEED(!setting || strlen(setting) < (size_t)size);
            setting = crypt_gensalt_rn(PREFIXES[i], 0, "0123456789abcdefghi", 19, room, size);
            NEED(!setting || strlen(setting) < (size_t)size);
            free(room);
        }
    char *setting = crypt_gensalt_ra(NULL, 0, NULL, 0);
    NEED(setting && crypt_checksalt(setting) == CRYPT_SALT_OK);
    NEED(strcmp(setting, crypt_gensalt(NULL, 0, NULL, 0)));
    free(setting);
    NEED(!crypt_gensalt_ra("$9$", 0, NULL, 0));
}

/* A string that ends with its page: a read behind its zero ends the program. */
static char *at_page_end(const char *string)
{
    size_t page = sysconf(_SC_PAGESIZE);
    char *pages = mmap(NULL, 2 * page, PROT_READ | PROT_WRITE, MAP_PRIVATE | MAP_ANONYMOUS, -1, 0);
    NEED(pages != MAP_FAILED && !mprotect(pages + page, page, PROT_NONE));
    return strcpy(pages + page - strlen(string) - 1, string);
}

static void try_page_end(void)
{
    static struct crypt_data data;
    char *phrase = at_page_end("pw");
    for (int i = 0; i < TEXT_COUNT; i++)
        NEED(!strcmp(crypt_r(phrase, at_page_end(TEXTS[i]), &data), TEXTS[i]));
    static const char *const SHORT[] = {"", "$", "$1", "$1$", "$2b$", "$2b$04$", "$5$rounds=", "$7$", "$y$", "$y$j", "$sha", "$sha1", "$sha1$", "$sha1$1", "$sha1$1$"};
    for (size_t i = 0; i < sizeof SHORT / sizeof SHORT[0]; i++)
        crypt_r(phrase, at_page_end(SHORT[i]), &data);
}

static void *run_thread(void *number)
{
    struct crypt_data *data = malloc(sizeof *data);
    NEED(data);
    memset(data, 'x', sizeof *data);
    data->initialized = 0;
    for (int i = 0; i < 200; i++) {
        const char *text = TEXTS[(i + *(int *)number) % TEXT_COUNT];
        NEED(!strcmp(crypt_r("pw", text, data), text));
    }
    free(data);
    return NULL;
}

static void try_threads(void)
{
    pthread_t threads[8];
    int numbers[8];
    for (int i = 0; i < 8; i++) {
        numbers[i] = i;
        NEED(!pthread_create(&threads[i], NULL, run_thread, &numbers[i]));
    }
    for (int i = 0; i < 8; i++)
        NEED(!pthread_join(threads[i], NULL));
}

/* getrandom of this program in the place of the system's: as the system gives it, or known bytes after so many interruptions, or an
 * answer of its own. <crypt.h> says of its calls that they call nothing of this file, so it is volatile. */
static volatile struct {
    bool known;
    int interruptions;
    ssize_t answer; /* 0: as many as asked for */
    int error;
    size_t asked;
} random_source;

ssize_t getrandom(void *bytes, size_t count, unsigned int flags)
{
    if (!random_source.known)
        return syscall(SYS_getrandom, bytes, count, flags);
    random_source.asked = count;
    if (random_source.interruptions > 0) {
        random_source.interruptions--;
        errno = EINTR;
        return -1;
    }
    if (random_source.error) {
        errno = random_source.error;
        return -1;
    }
    for (size_t i = 0; i < count; i++)
        ((unsigned char *)bytes)[i] = (unsigned char)(37 * i + 11);
    return random_source.answer ? random_source.answer : (ssize_t)count;
}

/* A new setting by the bytes of getrandom is the one by the same bytes as an argument, whose number is that which was asked for. */
static void try_drawn(void)
{
    static const char *const METHODS[] = {"$1$", "$5$", "$6$", "$2a$", "$2b$", "$2y$", "$7$", "$y$", "$sha1"};
    char bytes[64], drawn[192], given[192];
    for (size_t i = 0; i < sizeof bytes; i++)
        bytes[i] = (char)(37 * i + 11);
    random_source.known = true;
    for (size_t i = 0; i < sizeof METHODS / sizeof METHODS[0]; i++) {
        random_source.interruptions = 3;
        errno = 77;
        NEED(crypt_gensalt_rn(METHODS[i], 0, NULL, 0, drawn, sizeof drawn) && random_source.interruptions == 0);
        NEED(random_source.asked >= 9 && random_source.asked <= 20);
        NEED(crypt_gensalt_rn(METHODS[i], 0, bytes, (int)random_source.asked, given, sizeof given) && !strcmp(drawn, given));
        random_source.answer = (ssize_t)random_source.asked - 1;
        NEED(!crypt_gensalt_rn(METHODS[i], 0, NULL, 0, drawn, sizeof drawn) && errno == EIO && drawn[0] == '*');
        random_source.answer = 0;
        random_source.error = ENOSYS;
        NEED(!crypt_gensalt_rn(METHODS[i], 0, NULL, 0, drawn, sizeof drawn) && errno == ENOSYS && drawn[0] == '*');
        random_source.error = 0;
    }
    random_source.known = false;
}

/* errno is left alone beside a text, and so is all of the data but the output. */
static void try_kept(void)
{
    struct crypt_data data;
    for (int i = 0; i < TEXT_COUNT; i++) {
        memset(&data, 'x', sizeof data);
        errno = 77;
        NEED(!strcmp(crypt_r("pw", TEXTS[i], &data), TEXTS[i]) && errno == 77);
        const char *place = (const char *)&data;
        for (size_t k = sizeof data.output; k < sizeof data; k++)
            NEED(place[k] == 'x');
    }
    /* A setting in the output is answered by the second token, as libxcrypt answers it. */
    static const char *const REFUSED[] = {"*0", "*1", "$9$x"};
    for (size_t i = 0; i < sizeof REFUSED / sizeof REFUSED[0]; i++) {
        memset(&data, 0, sizeof data);
        strcpy(data.output, REFUSED[i]);
        NEED(!strcmp(crypt_r("pw", data.output, &data), "*1"));
    }
    NEED(!strcmp(crypt_r("pw", "*0", &data), "*1") && !strcmp(crypt_r("pw", "*1", &data), "*0"));
}

/* crypt_ra grows memory that is too small, and keeps what is large enough. */
static void try_grown(void)
{
    void *data = malloc(5);
    int size = 5;
    NEED(data && crypt_ra("pw", TEXTS[0], &data, &size) && size == (int)sizeof(struct crypt_data));
    void *before = data;
    NEED(!strcmp(crypt_ra("pw", TEXTS[0], &data, &size), TEXTS[0]) && data == before);
    free(data);
}

/* Whether a function, called in a child, gives 0. */
static bool child_does(int (*function)(void))
{
    fflush(NULL);
    pid_t child = fork();
    NEED(child >= 0);
    if (!child)
        _exit(function());
    int status = 0;
    return waitpid(child, &status, 0) == child && WIFEXITED(status) && WEXITSTATUS(status) == 0;
}

/* Where memory can't grow crypt_ra keeps what it was given: its caller reads it and frees it once. */
static int grow_without_memory(void)
{
    static char *volatile taken;
    struct rlimit none = {0, 0};
    void *data = malloc(5);
    int size = 5;
    if (!data || setrlimit(RLIMIT_AS, &none))
        return 2;
    memcpy(data, "kept", 5);
    do
        taken = malloc(64);
    while (taken);
    errno = 0;
    void *before = data;
    if (crypt_ra("pw", TEXTS[0], &data, &size) || errno != ENOMEM || data != before || size != 5 || strcmp(data, "kept"))
        return 1;
    free(data);
    return 0;
}

/* A setting is read to its end, however long it is. */
static void try_long_settings(void)
{
    static struct crypt_data data;
    static char setting[5000];
    for (size_t n = 100; n < sizeof setting; n += 700) {
        memset(setting, 'a', n);
        memcpy(setting, "$1$saltsalt$", 12);
        setting[n] = '\0';
        NEED(!strcmp(crypt_r("pw", setting, &data), TEXTS[0]));
        NEED(crypt_checksalt(setting) == CRYPT_SALT_METHOD_LEGACY);
        setting[n - 1] = ':';
        errno = 0;
        NEED(!strcmp(crypt_r("pw", setting, &data), "*0") && errno == EINVAL);
        NEED(crypt_checksalt(setting) == CRYPT_SALT_INVALID);
    }
}

/* In a child with little memory: the token and ENOMEM, and never the setting. */
static int text_without_memory(void)
{
    static struct crypt_data data;
    struct rlimit little = {32 << 20, 32 << 20};
    char setting[] = "$y$jFT$0123456789ab";
    if (setrlimit(RLIMIT_AS, &little))
        return 2;
    errno = 0;
    char *text = crypt_r("pw", setting, &data);
    int error = errno;
    bool none = !crypt_rn("pw", setting, &data, sizeof data) && errno == ENOMEM && !strcmp(data.output, "*0");
    return !strcmp(text, "*0") && error == ENOMEM && none ? 0 : 1;
}

/* Every text in a thread of the least stack that the system has. */
static void *run_small(void *data)
{
    for (int i = 0; i < TEXT_COUNT; i++)
        NEED(!strcmp(crypt_r("pw", TEXTS[i], data), TEXTS[i]));
    NEED(crypt_r("pw", "$9$refused", data)[0] == '*');
    return NULL;
}

static void try_small_thread(void)
{
    static struct crypt_data data;
    pthread_attr_t attributes;
    pthread_t thread;
    NEED(!pthread_attr_init(&attributes) && !pthread_attr_setstacksize(&attributes, SMALL_STACK));
    NEED(!pthread_create(&thread, &attributes, run_small, &data) && !pthread_join(thread, NULL));
    pthread_attr_destroy(&attributes);
}

int main(void)
{
    try_texts();
    try_drawn();
    try_kept();
    try_grown();
    try_long_settings();
    if (!SANITIZED) {
        NEED(child_does(grow_without_memory));
        NEED(child_does(text_without_memory));
        try_small_thread();
    }
    try_phrases();
    try_null();
    try_sizes();
    try_page_end();
    try_threads();
    puts("try.c: all as it has to be");
    return 0;
}
