/* Calls each export of libpwcheck with passwords of 0 to 5,000 bytes of all values, each buffer of its exact size on
 * the heap, to be built with -fsanitize=address,undefined. Each answer is compared with what the header says; the first
 * that differs ends the program with 1.
 *
 * usage: c_calls LINES WORDS [short]    (LINES has texts of every scheme, and WORDS their words: pwtool's stored run,
 *                                        crates/pwtool/data/lines.txt and crates/pwtool/stdout. With a third word:
 *                                        the lengths up to 200, and those about bounds, alone)
 */
#include <pwcheck.h>
#include <stdio.h>
#include <stdlib.h>
#include <string.h>

static unsigned long calls;

#define NEED(condition)                                                            \
    do {                                                                           \
        calls++;                                                                   \
        if (!(condition)) {                                                        \
            fprintf(stderr, "c_calls: line %d: %s\n", __LINE__, #condition);       \
            exit(1);                                                               \
        }                                                                          \
    } while (0)

static void *room(size_t n)
{
    void *p = malloc(n ? n : 1);
    if (!p) exit(2);
    return n ? p : (char *)p + 1; /* one byte behind: none of a buffer of 0 bytes may be touched */
}

static void give_back(void *p, size_t n) { free(n ? p : (char *)p - 1); }

static uint8_t *copy(const char *text, size_t n)
{
    uint8_t *p = room(n);
    memcpy(p, text, n);
    return p;
}

/* A stored text, and what each check answers a password that is UTF-8, not too long, and isn't its own. The first two
 * texts are those of the empty password. */
struct row {
    const char *text;
    int any, sha256, sha512;
};

static const struct row ROWS[] = {
    {"$5$rounds=1000$x$kIBhdUvT3pHpfTjzR8s1XJu3y/HRJeFxMSffBtF8jx9", 1, 1, 9},
    {"$6$rounds=1000$x$JUgHESfT/mKR2X.Qz/PrkEgBINN.wbH/GsJhhFRcgrb0"
     "a4MjVYFixxXtKicccBbv9PSG/n1kVdpVqZiR7Brv1.", 1, 9, 1},
    {"$scrypt$ln=4,r=8,p=1$aM15713r3Xsvxbi31lqr1Q$tRLzw8Z7aDjv6nXXg/DyMg+8Gut1P9TnqajTcpzrqmM", 1, 9, 9},
    {"$5$rounds=999999999$x$y", 17, 17, 9},
    {"$5$rounds=999$x$y", 15, 15, 9},
    {"$5", 10, 10, 9},
    {"$", 5, 9, 9},
    {"", 5, 9, 9},
};

enum { TEXT = 1, NO_TEXT = 0, OF_EMPTY = 2 };

/* What a check answers: UTF-8 first, then the length, then what the row says. */
static int wanted(size_t row, int is_text, size_t n, int other)
{
    if (!is_text) return PWCHECK_NOT_UTF8;
    if (n > PWCHECK_PASSWORD_MAX) return PWCHECK_PASSWORD_TOO_LONG;
    return row < OF_EMPTY && !n && other == PWCHECK_MISMATCH ? PWCHECK_MATCH : other;
}

/* All checks of a password. `costly` rows, whose digest is computed, are tried where `all` says so. */
static void check_all(const uint8_t *password, size_t n, int is_text, int all)
{
    for (size_t i = 0; i < sizeof ROWS / sizeof *ROWS; i++) {
        const struct row *row = &ROWS[i];
        size_t m = strlen(row->text);
        uint8_t *stored = copy(row->text, m);
        int computes = row->any == PWCHECK_MISMATCH && is_text && n <= PWCHECK_PASSWORD_MAX;
        if (!computes || all) {
            NEED(pwcheck_check(password, n, stored, m) == wanted(i, is_text, n, row->any));
            NEED(pwcheck_sha256_check(password, n, stored, m) == wanted(i, is_text, n, row->sha256));
            NEED(pwcheck_sha512_check(password, n, stored, m) == wanted(i, is_text, n, row->sha512));
        }
        NEED(pwcheck_check_limited(password, n, stored, m, 0, 0)
             == (computes ? PWCHECK_OVER_COST : wanted(i, is_text, n, row->any)));
        give_back(stored, m);
    }
}

static int untouched(const uint8_t *out, size_t n, size_t len)
{
    for (size_t i = 0; i < n; i++)
        if (out[i] != 'x') return 0;
    return len == 77;
}

/* Texts of every scheme, all of the password "secret", and of one a limit that is below it. */
static const struct any_row {
    const char *text;
    int other;          /* what another password is answered */
    size_t limit;       /* the place of the limit */
    uint32_t below;     /* the greatest number of that limit that refuses the text */
} ANY[] = {
    {"$1$abcdefgh$cHJi5PXp/ki/ktXzqlk6I1", PWCHECK_MISMATCH, 12, 0},
    {"$5$rounds=1500$abcdefgh$qXUmNmbLEOn5YPWvewYoPCAAHp5vzLn73xcpCUC256C", PWCHECK_MISMATCH, 0, 1499},
    {"$2b$04$abcdefghijklmnopqrstuu2r9OfJnfCsdneAXAGHnS4UpFFP8WIrW", PWCHECK_MISMATCH, 1, 3},
    {"$sha1$19$abcdefgh$nl4bYNUkvp1kTppWm6kb5cqPQqNG", PWCHECK_MISMATCH, 0, 18},
    {"$scram-sha-256$19$c2FsdHNhbHRzYWx0$yKryWWaEJIQZh+JLbGHI0L6CiAe9Z/A045j"
     "MaYLvY5Q=$m68IZJjNEbv8HGR356PYAHysNh90ZvhvCDdy6qKIKYw=", PWCHECK_MISMATCH, 5, 18},
    {"$P$63CSgRZlssLJbqxzpCXYPhDoROG16t0", PWCHECK_MISMATCH, 1, 7},
    {"$ssha$kYts+A==$N/O7ZPYFWQ9QtdpxAglBt23rONc=", PWCHECK_MISMATCH, 12, 0},
    {"$pbkdf2-sha1$i=998$c2FsdHNhbHRzYWx0$dfthYyTIsPBB/GS86Ihv/tqCRr0", PWCHECK_MISMATCH, 5, 997},
    {"$pbkdf2-sha256$i=1000,l=32$c2FsdHNhbHRzYWx0$sVaWem31qy3rw+Ldi3plA/XzhMSNi9/XHnnD1Ytj05o", PWCHECK_MISMATCH, 5, 999},
    {"$pbkdf2-sha512$i=1000,l=64$c2FsdHNhbHRzYWx0$bePzWo/796SGZ2lB"
     "KpZcU2FQhQXnjiEADnvU8yLzaxu1BwlSR076rTWeGRrvgBz757DxNPmtAZpVls5xSi9daw",
     PWCHECK_MISMATCH, 5, 999},
    {"$scrypt$ln=4,r=8,p=1$c2FsdHNhbHRzYWx0$09/untC+3Bg44eiJQ8bqhTXgE2ali+ykLaojkJZlF9U", PWCHECK_MISMATCH, 6, 3},
    {"$argon2id$v=19$m=64,t=1,p=1$c2FsdHNhbHRzYWx0$Sm3MnLdCFk0Af+croKgebRoqqmhbKd88iiW3yUOXn78", PWCHECK_MISMATCH, 9, 63},
    {"$y$j75$0123456789ab$kb1fsIrDP1wOa4Q3gNpxZkfwQ3ce8kmPbnemuN65IT2", PWCHECK_MISMATCH, 2, 1},
    {"*", PWCHECK_NO_SCHEME, 12, 0},
    {"$1$abcdefgh", PWCHECK_MD5_FORMAT, 12, 0},
    {"$2x$04$abcdefghijklmnopqrstuu2r9OfJnfCsdneAXAGHnS4UpFFP8WIrW", PWCHECK_BCRYPT_OBSOLETE, 12, 0},
    {"$y$j75$0123456789ab", PWCHECK_YESCRYPT_FORMAT, 12, 0},
    {"$7$4/..../....SodiumChloride", PWCHECK_SCRYPT_FORMAT, 12, 0},
    {"$sha1$0$salt$x", PWCHECK_SHA1_COST, 12, 0},
    {"$sha1$19$abcdefgh$nl4bYNUkvp1kTppWm6kb5cqPQqN-", PWCHECK_SHA1_B64, 12, 0},
    {"$sha1$19$abcdefgh", PWCHECK_SHA1_FORMAT, 12, 0},
    {"$scram-sha-256$0$c2FsdA==$x$x", PWCHECK_SCRAM_COST, 12, 0},
    {"$scram-sha-256$19$c2FsdA$x$x", PWCHECK_SCRAM_B64, 12, 0},
    {"$scram-sha-256$19$c2FsdA==", PWCHECK_SCRAM_FORMAT, 12, 0},
    {"$P$43CSgRZlssLJbqxzpCXYPhDoROG16t0", PWCHECK_PHPASS_COST, 12, 0},
    {"$H$63CSgRZlssLJbqxzpCXYPhDoROG16t+", PWCHECK_PHPASS_B64, 12, 0},
    {"$P$63CSgRZlssLJ", PWCHECK_PHPASS_FORMAT, 12, 0},
    {"$ssha$c2FsdA$x", PWCHECK_DIGEST_B64, 12, 0},
    {"$smd5$c2FsdA==", PWCHECK_DIGEST_FORMAT, 12, 0},
    {"$mysql$A$004*00*00", PWCHECK_MYSQL_COST, 12, 0},
    {"$mysql$A$005*091F0C4838086B4A107B1D52524C7B084B4C3407*3576313333324C494456316E3243426A5A594F706E4B477263396B702F73426A4145764F6B566C6456502D", PWCHECK_MYSQL_B64, 12, 0},
    {"$mysql$A$005*00", PWCHECK_MYSQL_FORMAT, 12, 0},
};

/* The limits of a program that was compiled with a shorter or a longer struct, in memory of exactly that size. */
static int32_t check_by(const struct any_row *row, const uint8_t *stored, size_t m, size_t count, uint32_t size, uint32_t further)
{
    uint32_t *numbers = room((count + 1) * sizeof *numbers);
    for (size_t i = 0; i <= count; i++)
        numbers[i] = i == 0 ? size : i == row->limit + 1 ? row->below : i > 12 ? further : UINT32_MAX;
    int32_t answer = pwcheck_check_any((const uint8_t *)"secret", 6, stored, m, (const struct pwcheck_limits *)numbers);
    give_back(numbers, (count + 1) * sizeof *numbers);
    return answer;
}

static void limits_of_other_sizes(const struct any_row *row, const uint8_t *stored, size_t m)
{
    for (uint32_t count = 0; count <= 20; count++) {
        uint32_t size = 4 * (count + 1);
        /* A number that the struct hasn't bounds nothing; one that this library doesn't know is refused where it bounds. */
        NEED(check_by(row, stored, m, count, size, UINT32_MAX) == (row->limit < count ? PWCHECK_OVER_COST : PWCHECK_MATCH));
        NEED(check_by(row, stored, m, count, size, 7)
             == (count > 12 ? PWCHECK_OUT_OF_RANGE : row->limit < count ? PWCHECK_OVER_COST : PWCHECK_MATCH));
        NEED(check_by(row, stored, m, count, size - 1, UINT32_MAX) == PWCHECK_OUT_OF_RANGE);
    }
    NEED(check_by(row, stored, m, 12, 0, UINT32_MAX) == PWCHECK_OUT_OF_RANGE);
    NEED(check_by(row, stored, m, 12, 1028, UINT32_MAX) == PWCHECK_OUT_OF_RANGE);
    NEED(check_by(row, stored, m, 12, UINT32_MAX, UINT32_MAX) == PWCHECK_OUT_OF_RANGE);
}

/* The calls of a login: a text that is made matches its password alone, each time with another salt, and a dear text isn't hashed. */
static void log_in(void)
{
    uint8_t *password = copy("correct horse", 13), *out = room(PWCHECK_TEXT_MAX), *again = room(PWCHECK_TEXT_MAX);
    size_t len = 77, other_len = 77;
    memset(out, 'x', PWCHECK_TEXT_MAX);
    NEED(pwcheck_make(password, 13, out, 96, &len) == PWCHECK_NO_ROOM && untouched(out, PWCHECK_TEXT_MAX, len));
    NEED(pwcheck_make((const uint8_t *)"\xff", 1, out, PWCHECK_TEXT_MAX, &len) == PWCHECK_REFUSED_UTF8);
    NEED(untouched(out, PWCHECK_TEXT_MAX, len));
    NEED(pwcheck_make(password, 13, out, 97, &len) == PWCHECK_DONE && len == 97);
    NEED(!memcmp(out, "$argon2id$v=19$m=65536,t=3,p=4$", 31));
    NEED(pwcheck_make(password, 13, again, PWCHECK_TEXT_MAX, &other_len) == PWCHECK_DONE && other_len == 97);
    NEED(memcmp(out + 31, again + 31, 22));
    NEED(pwcheck_check_login(password, 13, out, len) == PWCHECK_MATCH);
    /* The hash has 43 characters: of 42 one text in 16 is valid, of 41 none. */
    NEED(!pwcheck_needs_remake(out, len) && pwcheck_needs_remake(out, len - 2) && pwcheck_needs_remake(out, 0));
    NEED(pwcheck_check_login(password, 12, out, len) == PWCHECK_MISMATCH);
    for (size_t i = 0; i < sizeof ANY / sizeof *ANY; i++)
        NEED(pwcheck_check_login((const uint8_t *)"secret", 6, (const uint8_t *)ANY[i].text, strlen(ANY[i].text))
             == (ANY[i].other == PWCHECK_MISMATCH ? PWCHECK_MATCH : ANY[i].other));
    static const char *const DEAR[] = {
        "$5$rounds=5248001$abcdefgh$qXUmNmbLEOn5YPWvewYoPCAAHp5vzLn73xcpCUC256C",
        "$2b$16$abcdefghijklmnopqrstuu2r9OfJnfCsdneAXAGHnS4UpFFP8WIrW",
        "$pbkdf2-sha256$i=4800001,l=32$c2FsdHNhbHRzYWx0$sVaWem31qy3rw+Ldi3plA/XzhMSNi9/XHnnD1Ytj05o",
        "$scrypt$ln=18,r=8,p=1$c2FsdHNhbHRzYWx0$09/untC+3Bg44eiJQ8bqhTXgE2ali+ykLaojkJZlF9U",
        "$scrypt$ln=4,r=33,p=1$c2FsdHNhbHRzYWx0$09/untC+3Bg44eiJQ8bqhTXgE2ali+ykLaojkJZlF9U",
        "$scrypt$ln=4,r=8,p=11$c2FsdHNhbHRzYWx0$09/untC+3Bg44eiJQ8bqhTXgE2ali+ykLaojkJZlF9U",
        "$argon2id$v=19$m=262145,t=1,p=1$c2FsdHNhbHRzYWx0$Sm3MnLdCFk0Af+croKgebRoqqmhbKd88iiW3yUOXn78",
        "$argon2id$v=19$m=96,t=9,p=1$c2FsdHNhbHRzYWx0$Sm3MnLdCFk0Af+croKgebRoqqmhbKd88iiW3yUOXn78",
        "$argon2id$v=19$m=96,t=1,p=9$c2FsdHNhbHRzYWx0$Sm3MnLdCFk0Af+croKgebRoqqmhbKd88iiW3yUOXn78",
    };
    for (size_t i = 0; i < sizeof DEAR / sizeof *DEAR; i++)
        NEED(pwcheck_check_login(password, 13, (const uint8_t *)DEAR[i], strlen(DEAR[i])) == PWCHECK_OVER_COST);
    give_back(password, 13);
    give_back(out, PWCHECK_TEXT_MAX);
    give_back(again, PWCHECK_TEXT_MAX);
}

static void check_every_scheme(void)
{
    for (size_t i = 0; i < sizeof ANY / sizeof *ANY; i++) {
        const struct any_row *row = &ANY[i];
        struct pwcheck_limits limits = PWCHECK_LIMITS_NONE;
        size_t m = strlen(row->text);
        int own = row->other == PWCHECK_MISMATCH ? PWCHECK_MATCH : row->other;
        uint8_t *stored = copy(row->text, m), *secret = copy("secret", 6), *other = copy("Secret", 6);
        NEED(pwcheck_check_any(secret, 6, stored, m, &limits) == own);
        NEED(pwcheck_check_any(other, 6, stored, m, &limits) == row->other);
        if (row->limit < 12) {
            uint32_t numbers[13];
            memcpy(numbers, &limits, sizeof limits);
            numbers[row->limit + 1] = row->below;
            memcpy(&limits, numbers, sizeof limits);
            NEED(pwcheck_check_any(secret, 6, stored, m, &limits) == PWCHECK_OVER_COST);
            numbers[row->limit + 1] = row->below + (row->limit == 2 ? 30 : 1);
            memcpy(&limits, numbers, sizeof limits);
            NEED(pwcheck_check_any(secret, 6, stored, m, &limits) == PWCHECK_MATCH);
            limits_of_other_sizes(row, stored, m);
        }
        give_back(stored, m);
        give_back(secret, 6);
        give_back(other, 6);
    }
    struct pwcheck_limits limits = PWCHECK_LIMITS_NONE;
    uint8_t *stored = copy(ANY[2].text, strlen(ANY[2].text)), *zero = copy("sec\0ret", 7), *no_text = copy("\xff", 1);
    NEED(sizeof limits == 13 * sizeof(uint32_t) && limits.size == sizeof limits);
    NEED(pwcheck_check_any(zero, 7, stored, strlen(ANY[2].text), &limits) == PWCHECK_ZERO_BYTE);
    NEED(pwcheck_check_any(no_text, 1, stored, strlen(ANY[2].text), &limits) == PWCHECK_NOT_UTF8);
    give_back(stored, strlen(ANY[2].text));
    give_back(zero, 7);
    give_back(no_text, 1);
}

/* The word of a password and a stored text, in buffers of their own sizes. */
static void word_of(const char *password, size_t n, const char *text, size_t m, char *word)
{
    struct pwcheck_limits limits = PWCHECK_LIMITS_NONE;
    limits.bcrypt_cost = 7;
    uint8_t *secret = copy(password, n), *stored = copy(text, m), *out = room(PWCHECK_WORD_SIZE);
    pwcheck_word(pwcheck_check_any(secret, n, stored, m, &limits), out, PWCHECK_WORD_SIZE);
    strcpy(word, (char *)out);
    give_back(secret, n);
    give_back(stored, m);
    give_back(out, PWCHECK_WORD_SIZE);
}

/* Each line of the stored run of `pwtool check --max-bcrypt-cost 7` has its word here too, where a cost above the bound has
 * another one, and a line without a tab is none. */
static void stored_run(const char *lines_name, const char *words_name)
{
    FILE *lines = fopen(lines_name, "r"), *words = fopen(words_name, "r");
    char line[1024], wanted[64], word[PWCHECK_WORD_SIZE];
    int count = 0;
    NEED(lines && words);
    for (; fgets(line, sizeof line, lines); count++) {
        NEED(fgets(wanted, sizeof wanted, words));
        line[strcspn(line, "\n")] = wanted[strcspn(wanted, "\n")] = 0;
        char *tab = strrchr(line, '\t');
        if (tab) word_of(line, (size_t)(tab - line), tab + 1, strlen(tab + 1), word);
        else strcpy(word, "badline");
        NEED(!strcmp(strcmp(word, "over-cost") ? word : "too-costly", wanted));
    }
    NEED(count > 0 && !fgets(wanted, sizeof wanted, words));
    fclose(lines);
    fclose(words);
}

/* A text that is made: its length, no byte past it, and the checks that match it. */
static void made(const uint8_t *password, size_t n, const uint8_t *text, size_t len)
{
    uint8_t *exact = copy((const char *)text, len);
    NEED(pwcheck_check(password, n, exact, len) == PWCHECK_MATCH);
    give_back(exact, len);
}

static void make_sha(const uint8_t *password, size_t n, int is_text)
{
    int good = is_text && n <= PWCHECK_PASSWORD_MAX;
    uint8_t *salt = copy("./aZ0123456789xy", 16), *out = room(PWCHECK_SHA512_TEXT_MAX);
    size_t len = 77;
    memset(out, 'x', PWCHECK_SHA512_TEXT_MAX);
    int status = pwcheck_sha256_crypt_text(password, n, salt, 16, 1000, out, PWCHECK_SHA256_TEXT_MAX, &len);
    NEED(status == (good ? PWCHECK_DONE : PWCHECK_OUT_OF_RANGE) && (good || (len == 77 && out[0] == 'x')));
    if (good) made(password, n, out, len);
    status = pwcheck_sha512_crypt_text(password, n, salt, 16, 1000, out, PWCHECK_SHA512_TEXT_MAX, &len);
    NEED(status == (good ? PWCHECK_DONE : PWCHECK_OUT_OF_RANGE));
    if (good) made(password, n, out, len);
    give_back(out, PWCHECK_SHA512_TEXT_MAX);
    give_back(salt, 16);
}

static void make_scrypt(const uint8_t *password, size_t n, int is_text)
{
    int good = is_text && n <= PWCHECK_PASSWORD_MAX;
    uint8_t *salt = copy("\0\1\2\3\4\5\6\7\x80\xff\x81\xfe\n\r\t ", 16), *out = room(PWCHECK_SCRYPT_TEXT_MAX);
    size_t len = 77;
    int status = pwcheck_scrypt_text(password, n, salt, 16, 1, 1, 1, out, PWCHECK_SCRYPT_TEXT_MAX, &len);
    NEED(status == (good ? PWCHECK_DONE : PWCHECK_OUT_OF_RANGE) && (good || len == 77));
    if (good) {
        uint8_t *tight = room(len), *short_of = room(len - 1);
        size_t again = 77;
        made(password, n, out, len);
        status = pwcheck_scrypt_text(password, n, salt, 16, 1, 1, 1, short_of, len - 1, &again);
        NEED(status == PWCHECK_NO_ROOM && again == 77);
        status = pwcheck_scrypt_text(password, n, salt, 16, 1, 1, 1, tight, len, &again);
        NEED(status == PWCHECK_DONE && again == len);
        NEED(!memcmp(tight, out, len));
        give_back(tight, len);
        give_back(short_of, len - 1);
    }
    give_back(out, PWCHECK_SCRYPT_TEXT_MAX);
    give_back(salt, 16);
}

/* The makers of the other schemes, by their numbers, which are cheap here. */
typedef int32_t maker(const uint8_t *, size_t, const uint8_t *, size_t, uint8_t *, size_t, size_t *);

static int32_t bcrypt(const uint8_t *p, size_t n, const uint8_t *s, size_t m, uint8_t *out, size_t room, size_t *len)
{
    return pwcheck_bcrypt_text(p, n, s, m, 4, out, room, len);
}

static int32_t yescrypt(const uint8_t *p, size_t n, const uint8_t *s, size_t m, uint8_t *out, size_t room, size_t *len)
{
    return pwcheck_yescrypt_text(p, n, s, m, 2, 1, 0, out, room, len);
}

static int32_t argon2id(const uint8_t *p, size_t n, const uint8_t *s, size_t m, uint8_t *out, size_t room, size_t *len)
{
    return pwcheck_argon2id_text(p, n, s, m, 16, 3, 2, out, room, len);
}

static int32_t pbkdf2(const uint8_t *p, size_t n, const uint8_t *s, size_t m, uint8_t *out, size_t room, size_t *len)
{
    return pwcheck_pbkdf2_sha256_text(p, n, s, m, 1, out, room, len);
}

static const struct maker_row {
    maker *make;
    const char *front;
    size_t longest;     /* the most bytes of a password */
    int takes_zero;
} MAKERS[] = {
    {bcrypt, "$2b$04$", PWCHECK_BCRYPT_PASSWORD_MAX, 0},
    {yescrypt, "$y$j/.$", PWCHECK_PASSWORD_MAX, 0},
    {argon2id, "$argon2id$v=19$m=16,t=3,p=2$", PWCHECK_PASSWORD_MAX, 1},
    {pbkdf2, "$pbkdf2-sha256$i=1,l=32$", PWCHECK_PASSWORD_MAX, 1},
};

/* What a maker answers a password: too long first, then UTF-8, then a zero byte. */
static int make_wanted(const struct maker_row *row, const uint8_t *password, size_t n, int is_text)
{
    if (n > row->longest) return PWCHECK_REFUSED_LENGTH;
    if (!is_text) return PWCHECK_REFUSED_UTF8;
    if (!row->takes_zero && n && memchr(password, 0, n)) return PWCHECK_REFUSED_ZERO;
    return PWCHECK_DONE;
}

static void make_by(const struct maker_row *row, const uint8_t *password, size_t n, int is_text)
{
    int wanted_status = make_wanted(row, password, n, is_text);
    uint8_t *salt = copy("\0\1\2\3\4\5\6\7\x80\xff\x81\xfe\n\r\t ", 16), *out = room(PWCHECK_TEXT_MAX);
    size_t len = 77;
    memset(out, 'x', PWCHECK_TEXT_MAX);
    NEED(row->make(password, n, salt, 15, out, PWCHECK_TEXT_MAX, &len) == PWCHECK_OUT_OF_RANGE);
    NEED(untouched(out, PWCHECK_TEXT_MAX, len));
    NEED(row->make(password, n, salt, 16, out, PWCHECK_TEXT_MAX, &len) == wanted_status);
    if (wanted_status == PWCHECK_DONE) {
        struct pwcheck_limits limits = PWCHECK_LIMITS_NONE;
        uint8_t *tight = room(len), *short_of = room(len - 1);
        size_t again = 77;
        memset(short_of, 'x', len - 1);
        NEED(len > strlen(row->front) && !memcmp(out, row->front, strlen(row->front)));
        NEED(row->make(password, n, salt, 16, short_of, len - 1, &again) == PWCHECK_NO_ROOM);
        NEED(untouched(short_of, len - 1, again));
        NEED(row->make(password, n, salt, 16, tight, len, &again) == PWCHECK_DONE && again == len);
        NEED(!memcmp(tight, out, len));
        NEED(pwcheck_check_any(password, n, tight, len, &limits) == PWCHECK_MATCH);
        give_back(tight, len);
        give_back(short_of, len - 1);
    } else {
        NEED(untouched(out, PWCHECK_TEXT_MAX, len));
    }
    give_back(out, PWCHECK_TEXT_MAX);
    give_back(salt, 16);
}

static void make_every(const uint8_t *password, size_t n, int is_text)
{
    for (size_t i = 0; i < sizeof MAKERS / sizeof *MAKERS; i++) make_by(&MAKERS[i], password, n, is_text);
}

/* Numbers that no text is made of, each beside others that are taken. */
static void make_refused(void)
{
    uint8_t *salt = room(16), *out = room(PWCHECK_TEXT_MAX), *p = copy("secret", 6);
    size_t len = 77, most = PWCHECK_TEXT_MAX;
    memset(out, 'x', most);
    memset(salt, 's', 16);
    for (uint32_t cost = 0; cost < 4; cost++)
        NEED(pwcheck_bcrypt_text(p, 6, salt, 16, cost, out, most, &len) == PWCHECK_OUT_OF_RANGE);
    NEED(pwcheck_bcrypt_text(p, 6, salt, 16, 32, out, most, &len) == PWCHECK_OUT_OF_RANGE);
    NEED(pwcheck_bcrypt_text(p, 6, salt, 16, UINT32_MAX, out, most, &len) == PWCHECK_OUT_OF_RANGE);
    NEED(pwcheck_yescrypt_text(p, 6, salt, 16, 1, 8, 0, out, most, &len) == PWCHECK_OUT_OF_RANGE);
    NEED(pwcheck_yescrypt_text(p, 6, salt, 16, 8, 0, 0, out, most, &len) == PWCHECK_OUT_OF_RANGE);
    NEED(pwcheck_yescrypt_text(p, 6, salt, 16, 8, 8, 1025, out, most, &len) == PWCHECK_OUT_OF_RANGE);
    NEED(pwcheck_yescrypt_text(p, 6, salt, 16, 24, 1, 0, out, most, &len) == PWCHECK_OUT_OF_RANGE);
    NEED(pwcheck_yescrypt_text(p, 6, salt, 16, 2, 1 << 19, 0, out, most, &len) == PWCHECK_OUT_OF_RANGE);
    NEED(pwcheck_argon2id_text(p, 6, salt, 16, 7, 1, 1, out, most, &len) == PWCHECK_OUT_OF_RANGE);
    NEED(pwcheck_argon2id_text(p, 6, salt, 16, (1 << 21) + 1, 1, 1, out, most, &len) == PWCHECK_OUT_OF_RANGE);
    NEED(pwcheck_argon2id_text(p, 6, salt, 16, 8, 0, 1, out, most, &len) == PWCHECK_OUT_OF_RANGE);
    NEED(pwcheck_argon2id_text(p, 6, salt, 16, 8, 1, 0, out, most, &len) == PWCHECK_OUT_OF_RANGE);
    NEED(pwcheck_argon2id_text(p, 6, salt, 16, 8, (1 << 21) + 1, 1, out, most, &len) == PWCHECK_OUT_OF_RANGE);
    NEED(pwcheck_pbkdf2_sha256_text(p, 6, salt, 16, 0, out, most, &len) == PWCHECK_OUT_OF_RANGE);
    NEED(pwcheck_pbkdf2_sha256_text(p, 6, salt, 16, 10000001, out, most, &len) == PWCHECK_OUT_OF_RANGE);
    NEED(untouched(out, most, len));
    give_back(out, most);
    give_back(salt, 16);
    give_back(p, 6);
}

/* Digests and fields, which take passwords of any bytes. */
static void digests(const uint8_t *password, size_t n)
{
    int status = n <= PWCHECK_PASSWORD_MAX ? PWCHECK_DONE : PWCHECK_OUT_OF_RANGE;
    uint8_t *d256 = room(32), *d512 = room(64), *f256 = room(43), *f512 = room(86), *salt = room(0);
    NEED(pwcheck_sha256_crypt(password, n, salt, 0, 1000, d256, 32) == status);
    NEED(pwcheck_sha512_crypt(password, n, salt, 0, 1000, d512, 64) == status);
    NEED(pwcheck_sha256_crypt_b64(password, n, salt, 0, 1000, f256, 43) == status);
    NEED(pwcheck_sha512_crypt_b64(password, n, salt, 0, 1000, f512, 86) == status);
    give_back(d256, 32);
    give_back(d512, 64);
    give_back(f256, 43);
    give_back(f512, 86);
    give_back(salt, 0);
}

/* Base64 there and back in each alphabet, and a comparison. */
static void coder(const uint8_t *data, size_t n)
{
    for (uint32_t alphabet = 0; alphabet < 8; alphabet++) {
        size_t m = pwcheck_base64_encoded_len(alphabet, n), len = 0, back = 0;
        uint8_t *text = room(m), *again = room(n);
        NEED(pwcheck_base64_encode(alphabet, data, n, text, m, &len) == PWCHECK_DONE && len == m);
        NEED(pwcheck_base64_decoded_len(alphabet, text, m) == n);
        NEED(pwcheck_base64_decode(alphabet, text, m, again, n, &back) == PWCHECK_DONE && back == n);
        NEED(pwcheck_same_bytes(data, n, again, n) && !memcmp(data, again, n));
        if (m) NEED(pwcheck_base64_encode(alphabet, data, n, text, m - 1, &len) == PWCHECK_NO_ROOM);
        give_back(text, m);
        give_back(again, n);
    }
}

static void keys(const uint8_t *password, size_t n)
{
    uint8_t *key = room(64);
    NEED(pwcheck_scrypt(password, n, password, n, 1, 1, 1, key, 64) == PWCHECK_DONE);
    NEED(pwcheck_scrypt(password, n, password, n, 1, 1, 1, key, 0) == PWCHECK_OUT_OF_RANGE);
    /* hashlib.scrypt(b"password", salt=b"NaCl", n=16, r=3, p=2, dklen=32) begins so */
    NEED(pwcheck_scrypt((const uint8_t *)"password", 8, (const uint8_t *)"NaCl", 4, 4, 3, 2, key, 32) == PWCHECK_DONE);
    NEED(!memcmp(key, "\xff\xa3\xac\x6d\x2d\x52\x53\x74", 8));
    give_back(key, 64);
}

/* Bytes of all values, or of those of ASCII: only the second are UTF-8, but for the empty text. */
static void fill(uint8_t *password, size_t n, int is_text)
{
    for (size_t i = 0; i < n; i++) password[i] = (uint8_t)((i * 7 + n) % (is_text ? 128 : 256));
    if (!is_text && n) password[n / 2] = 0xff;
}

static void words(void)
{
    int32_t count = 0; /* of answers: after the first number without a word, none has one */
    uint8_t none;
    while (pwcheck_word(count, &none, 0)) count++;
    NEED(count > PWCHECK_MYSQL_FORMAT);
    for (int32_t k = -5; k < 300; k++)
        for (size_t n = 0; n <= PWCHECK_WORD_SIZE; n++) {
            uint8_t *out = room(n);
            size_t len = pwcheck_word(k, out, n);
            NEED(len < PWCHECK_WORD_SIZE && (len > 0) == (k >= 0 && k < count));
            if (len && len < n) NEED(strlen((char *)out) == len);
            give_back(out, n);
        }
    uint8_t *out = room(sizeof PWCHECK_VERSION);
    NEED(pwcheck_version(out, sizeof PWCHECK_VERSION) == sizeof PWCHECK_VERSION - 1);
    NEED(!strcmp((char *)out, PWCHECK_VERSION));
    give_back(out, sizeof PWCHECK_VERSION);
}

int main(int argc, char **argv)
{
    if (argc < 3) {
        fprintf(stderr, "usage: c_calls LINES WORDS [short]\n");
        return 2;
    }
    int is_short = argc > 3;
    words();
    stored_run(argv[1], argv[2]);
    check_every_scheme();
    log_in();
    make_refused();
    for (size_t n = 0; n <= 5000; n++)
        for (int is_text = NO_TEXT; is_text <= TEXT; is_text++) {
            /* A digest of a long password takes long: each length up to 200, those about bounds, and each 331st. */
            int all = n <= 200 || n % 331 == 0 || (n >= 4095 && n <= 4097);
            if (is_short && n > 200 && !(n >= 4095 && n <= 4097)) continue;
            uint8_t *password = room(n);
            fill(password, n, is_text);
            int text = is_text || !n;
            check_all(password, n, text, all);
            if (all || !text || n > PWCHECK_PASSWORD_MAX) make_sha(password, n, text);
            make_scrypt(password, n, text);
            if (all || n > PWCHECK_PASSWORD_MAX) make_every(password, n, text);
            if (all || n > PWCHECK_PASSWORD_MAX) digests(password, n);
            if (n <= 300 || n % 97 == 0) coder(password, n);
            keys(password, n);
            give_back(password, n);
        }
    printf("c_calls: %lu answers of calls with passwords of %s are those of the header\n", calls,
        is_short ? "0 to 200 and about 4,096 bytes" : "0 to 5,000 bytes");
    return fflush(stdout) == EOF;
}
