"""Answers each line of standard input, a password, a tab and a stored text, with the word of pwcheck_check, as the
program `pwcheck check` does: a line that has no tab or isn't UTF-8 is "badline", one of more than 8,192
bytes "toolong"."""
import sys

import pwcheck

LINE_MAX = 8192


def answer(line):
    if len(line) > LINE_MAX:
        return "toolong"
    password, tab, stored = line.rpartition(b"\t")
    number = pwcheck.check(password, stored) if tab else pwcheck.Answer.NOT_UTF8
    return "badline" if number == pwcheck.Answer.NOT_UTF8 else pwcheck.word(number)


for line in sys.stdin.buffer:
    print(answer(line[:-1] if line.endswith(b"\n") else line))
