/* Computes the SHA-crypt text of COUNT passwords of LENGTH bytes, and prints the last text, or the last digest in
   hexadecimal. The peer is libxcrypt's crypt_r, or Drepper's steps over libcrypto's hash function. FAMILY, which the
   compiler is given, is 5 (SHA-256) or 6 (SHA-512). */
#define _GNU_SOURCE
#define OPENSSL_API_COMPAT 0x10100000L
#include <crypt.h>
#include <openssl/sha.h>
#include <stdio.h>
#include <stdlib.h>
#include <string.h>

#if FAMILY == 5
enum { DIGEST = 32 };
typedef SHA256_CTX hash_state;
#define hash_init SHA256_Init
#define hash_update SHA256_Update
#define hash_final SHA256_Final
#else
enum { DIGEST = 64 };
typedef SHA512_CTX hash_state;
#define hash_init SHA512_Init
#define hash_update SHA512_Update
#define hash_final SHA512_Final
#endif

enum { ROUNDS = 5000, MOST = 256 };
static const char salt[] = "saltsaltsaltsalt";

static void repeat(unsigned char *to, size_t length, const unsigned char *digest)
{
    for (size_t i = 0; i < length; i++)
        to[i] = digest[i % DIGEST];
}

static void start(unsigned char *a, const char *password, size_t length, size_t salt_length)
{
    unsigned char b[DIGEST], filled[MOST];
    hash_state c;
    hash_init(&c);
    hash_update(&c, password, length);
    hash_update(&c, salt, salt_length);
    hash_update(&c, password, length);
    hash_final(b, &c);
    repeat(filled, length, b);
    hash_init(&c);
    hash_update(&c, password, length);
    hash_update(&c, salt, salt_length);
    hash_update(&c, filled, length);
    for (size_t left = length; left > 0; left /= 2) {
        if (left % 2)
            hash_update(&c, b, DIGEST);
        else
            hash_update(&c, password, length);
    }
    hash_final(a, &c);
}

static void copies(unsigned char *digest, const char *piece, size_t length, size_t count)
{
    hash_state c;
    hash_init(&c);
    while (count-- > 0)
        hash_update(&c, piece, length);
    hash_final(digest, &c);
}

static void openssl_digest(unsigned char *c, const char *password, size_t length)
{
    size_t salt_length = strlen(salt);
    unsigned char digest[DIGEST], p[MOST], s[16];
    start(c, password, length, salt_length);
    copies(digest, password, length, length);
    repeat(p, length, digest);
    copies(digest, salt, salt_length, 16 + c[0]);
    repeat(s, salt_length, digest);
    for (int i = 0; i < ROUNDS; i++) {
        hash_state x;
        hash_init(&x);
        hash_update(&x, i % 2 ? p : c, i % 2 ? length : DIGEST);
        if (i % 3)
            hash_update(&x, s, salt_length);
        if (i % 7)
            hash_update(&x, p, length);
        hash_update(&x, i % 2 ? c : p, i % 2 ? DIGEST : length);
        hash_final(c, &x);
    }
}

int main(int argc, char **argv)
{
    static struct crypt_data state;
    char password[MOST], setting[32];
    if (argc != 4)
        return 2;
    int count = atoi(argv[2]), length = atoi(argv[3]);
    if (length < 1 || length >= MOST)
        return 2;
    memset(password, 'a', length);
    password[length] = 0;
    snprintf(setting, sizeof setting, "$%d$%s", FAMILY, salt);
    unsigned char digest[DIGEST] = {0};
    const char *text = "";
    for (int i = 0; i < count; i++) {
        password[0] = 'a' + i % 16;
        if (!strcmp(argv[1], "libxcrypt"))
            text = crypt_r(password, setting, &state);
        else
            openssl_digest(digest, password, length);
    }
    printf("%s", text);
    for (int i = 0; i < DIGEST && !*text; i++)
        printf("%02x", digest[i]);
    printf("\n");
    return 0;
}
