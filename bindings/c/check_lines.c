/* Answers each line of standard input, a password, a tab and a stored text, with the word of pwcheck_check, as the
 * program `pwcheck check` does: a line that has no tab or isn't UTF-8 is "badline", one of more than 8,192 bytes
 * "toolong".
 *
 *     check_lines < FILE
 *     check_lines make PASSWORD SALT     prints a SHA-256-crypt text of 5,000 rounds, and what its check answers
 *
 * It ends with 3 where the input can't be read, and with 4 where the output can't be written.
 */
#define _GNU_SOURCE
#include <pwcheck.h>
#include <stdio.h>
#include <stdlib.h>
#include <string.h>

enum { LINE_MAX_BYTES = 8192 };

static const uint8_t *bytes(const char *text) { return (const uint8_t *)text; }

static const char *answer_line(const char *line, size_t n, char *word)
{
    if (n > LINE_MAX_BYTES) return "toolong";
    const char *tab = memrchr(line, '\t', n);
    if (!tab) return "badline";
    size_t at = tab - line;
    int32_t answer = pwcheck_check(bytes(line), at, bytes(tab) + 1, n - at - 1);
    if (answer == PWCHECK_NOT_UTF8) return "badline";
    pwcheck_word(answer, (uint8_t *)word, PWCHECK_WORD_SIZE);
    return word;
}

static int make(const char *password, const char *salt)
{
    uint8_t text[PWCHECK_SHA256_TEXT_MAX];
    char word[PWCHECK_WORD_SIZE];
    size_t n;
    if (pwcheck_sha256_crypt_text(bytes(password), strlen(password), bytes(salt), strlen(salt), 5000, text, sizeof text,
                                  &n) != PWCHECK_DONE) {
        fputs("the salt is no salt, or the password is too long or no UTF-8\n", stderr);
        return 2;
    }
    pwcheck_word(pwcheck_check(bytes(password), strlen(password), text, n), (uint8_t *)word, sizeof word);
    printf("%.*s %s\n", (int)n, (const char *)text, word);
    return 0;
}

/* Answers the lines of standard input. A line may hold zero bytes: fgets would cut it there. */
static int answer_lines(void)
{
    char *line = NULL, word[PWCHECK_WORD_SIZE];
    size_t size = 0;
    ssize_t got;
    while ((got = getline(&line, &size, stdin)) > 0)
        if (puts(answer_line(line, line[got - 1] == '\n' ? got - 1 : got, word)) == EOF) break;
    free(line);
    if (!feof(stdin) && !ferror(stdout)) {
        perror("check_lines: the input can't be read");
        return 3;
    }
    return 0;
}

int main(int argc, char **argv)
{
    int status = argc == 4 && !strcmp(argv[1], "make") ? make(argv[2], argv[3]) : answer_lines();
    /* An answer that isn't written is a fault, not a silence. */
    if (fflush(stdout) == EOF || ferror(stdout)) {
        perror("check_lines: the output can't be written");
        return 4;
    }
    return status;
}
