/* Calls one export with secret bytes that memcheck takes for undefined, so that it reports each jump and each
 * address that depends on them. bench/taint.py builds it, runs it under valgrind and reads the reports.
 *
 * usage: taint decode|decode_ending_public ALPHABET TEXT
 *        taint encode ALPHABET COUNT
 *        taint same A B
 *        taint sha256|sha512|field256|field512|text256|text512|scrypt|scrypt_text PASSWORD
 *        taint check|check_limited|check256|check512 password|hash PASSWORD STORED
 *        taint control_compare A B | taint control_table TEXT
 * Of a stored text the field behind the last '$' is the secret one. */
#include <pwcheck.h>
#include <stdio.h>
#include <stdlib.h>
#include <string.h>
#include <valgrind/memcheck.h>

enum { ROOM = 1024 };

static void hide(void *at, size_t n) { (void)VALGRIND_MAKE_MEM_UNDEFINED(at, n); }

/* A copy of a text, behind which nothing stands. */
static uint8_t *copy(const char *text)
{
    size_t n = strlen(text);
    uint8_t *to = malloc(n + !n);
    if (!to) exit(2);
    memcpy(to, text, n);
    return to;
}

/* What must be found: a comparison that ends at the first difference, and a look-up in a table. */
static __attribute__((noinline)) int control_compare(const uint8_t *a, const uint8_t *b, size_t n)
{
    for (size_t i = 0; i < n; i++)
        if (a[i] != b[i]) return 0;
    return 1;
}

static const uint8_t table[256] = {['A'] = 1, ['B'] = 2};

static __attribute__((noinline)) int control_table(const uint8_t *a, size_t n)
{
    int sum = 0;
    for (size_t i = 0; i < n; i++) sum += table[a[i]];
    return sum;
}

/* What is made of a password. */
static int32_t made(const char *what, const uint8_t *a, size_t m, uint8_t *out, size_t *len)
{
    const uint8_t *salt = (const uint8_t *)"saltstring";
    if (!strcmp(what, "sha256")) return pwcheck_sha256_crypt(a, m, salt, 10, 1000, out, 32);
    if (!strcmp(what, "sha512")) return pwcheck_sha512_crypt(a, m, salt, 10, 1000, out, 64);
    if (!strcmp(what, "field256")) return pwcheck_sha256_crypt_b64(a, m, salt, 10, 1000, out, 43);
    if (!strcmp(what, "field512")) return pwcheck_sha512_crypt_b64(a, m, salt, 10, 1000, out, 86);
    if (!strcmp(what, "text256")) return pwcheck_sha256_crypt_text(a, m, salt, 10, 1000, out, ROOM, len);
    if (!strcmp(what, "text512")) return pwcheck_sha512_crypt_text(a, m, salt, 10, 1000, out, ROOM, len);
    if (!strcmp(what, "scrypt_text"))
        return pwcheck_scrypt_text(a, m, (const uint8_t *)"sixteen letters.", 16, 4, 8, 1, out, ROOM, len);
    return pwcheck_scrypt(a, m, salt, 10, 4, 8, 1, out, 32);
}

int main(int argc, char **argv)
{
    if (argc < 3) return 2;
    const char *what = argv[1], *second = argc > 3 ? argv[3] : "";
    uint8_t *a, *b, out[ROOM];
    size_t len = 0, n = strlen(second), m = strlen(argv[2]);
    int32_t status;

    if (!strncmp(what, "decode", 6)) {
        size_t ending = !strcmp(what, "decode_ending_public") ? 2 : 0;
        a = copy(second);
        hide(a, n - ending);
        status = pwcheck_base64_decode(atoi(argv[2]), a, n, out, ROOM, &len);
    } else if (!strcmp(what, "encode")) {
        n = atoi(second);
        a = calloc(n + !n, 1);
        hide(a, n);
        status = pwcheck_base64_encode(atoi(argv[2]), a, n, out, ROOM, &len);
    } else if (!strcmp(what, "same") || !strcmp(what, "control_compare")) {
        a = copy(argv[2]), b = copy(second);
        hide(a, m), hide(b, n);
        status = what[0] == 's' ? pwcheck_same_bytes(a, m, b, n) : control_compare(a, b, m);
    } else if (!strcmp(what, "control_table")) {
        a = copy(argv[2]);
        hide(a, m);
        status = control_table(a, m);
    } else if (!strncmp(what, "check", 5)) {
        a = copy(second), b = copy(argv[4]);
        size_t stored = strlen(argv[4]), field = strrchr(argv[4], '$') + 1 - argv[4];
        if (!strcmp(argv[2], "password")) hide(a, n);
        else hide(b + field, stored - field);
        status = !strcmp(what, "check256") ? pwcheck_sha256_check(a, n, b, stored)
               : !strcmp(what, "check_limited") ? pwcheck_check_limited(a, n, b, stored, 10000, 1 << 20)
               : !strcmp(what, "check512") ? pwcheck_sha512_check(a, n, b, stored)
                                           : pwcheck_check(a, n, b, stored);
    } else {
        a = copy(argv[2]);
        hide(a, m);
        status = made(what, a, m, out, &len);
    }
    /* The answer is for everyone. */
    (void)VALGRIND_MAKE_MEM_DEFINED(&status, sizeof status);
    printf("%d\n", status);
    return 0;
}
