/* What the kinds of cases.c share: the words of a line, what is said of a case. A kind is a function of a line's words. */
#ifndef CASES_H
#define CASES_H

#include "border.h"

typedef struct {
    const byte *at;
    mainspur_size length;
} Word;

/* what a line is: no case, or one that agrees or differs */
typedef enum { NO_CASE, AGREES, DIFFERS } Outcome;

enum { WORDS = 5, NOT_HEX = -1, TOO_LONG = -2 };

/* the file and the line that is played */
static const char *file_name;
static unsigned long line_number;

/* Splits a line at each space; the last of WORDS words is the rest of the line. */
static inline int split(const byte *line, mainspur_size length, Word *words) {
    int n = 0;
    mainspur_size from = 0;
    for (mainspur_size i = 0; i < length && n < WORDS - 1; i++) {
        if (line[i] != ' ') continue;
        words[n++] = (Word){line + from, i - from};
        from = i + 1;
    }
    words[n++] = (Word){line + from, length - from};
    return n;
}

static inline int is(Word w, const char *s) {
    return w.length == length_of(s) && same(w.at, (const byte *)s, w.length);
}

static inline int capital_digit(byte c) {
    return c < 'a' ? digit(c) : -1;
}

/* The bytes of a word in capital hexadecimal, at least one and at most room of them; else NOT_HEX or TOO_LONG. */
static inline long decode(Word w, byte *to, mainspur_size room) {
    if (w.length == 0 || w.length % 2) return NOT_HEX;
    for (mainspur_size i = 0; i < w.length; i++)
        if (capital_digit(w.at[i]) < 0) return NOT_HEX;
    if (w.length / 2 > room) return TOO_LONG;
    for (mainspur_size i = 0; i < w.length; i += 2) to[i / 2] = (byte)(digit(w.at[i]) * 16 + digit(w.at[i + 1]));
    return (long)(w.length / 2);
}

/* A word of decimal digits, at most 255; -1 for another. */
static inline int byte_in(Word w) {
    int n = 0;
    if (w.length == 0 || w.length > 3) return -1;
    for (mainspur_size i = 0; i < w.length; i++) {
        if (w.at[i] < '0' || w.at[i] > '9') return -1;
        n = n * 10 + w.at[i] - '0';
    }
    return n > 255 ? -1 : n;
}

/* Bytes as capital hexadecimal. */
static inline mainspur_size encode(const byte *from, mainspur_size n, byte *to) {
    for (mainspur_size i = 0; i < 2 * n; i++) {
        int d = i % 2 ? from[i / 2] % 16 : from[i / 2] / 16;
        to[i] = (byte)(d < 10 ? '0' + d : 'A' + d - 10);
    }
    return 2 * n;
}

/* FILE:LINE: at the front of what is said of a line */
static inline void print_place(void) {
    print(file_name);
    print(":");
    print_number(line_number);
    print(": ");
}

/* A line that differs in another way than by its answer, or that can't be read. */
static inline Outcome faulty(const char *why) {
    print_place();
    print(why);
    print("\n");
    return DIFFERS;
}

static inline void print_expected(Word expected) {
    print_place();
    print("expected ");
    print_bytes(expected.at, expected.length);
    print(", ours ");
}

static inline Outcome other_answer(Word expected, const byte *ours, mainspur_size n) {
    print_expected(expected);
    print_bytes(ours, n);
    print("\n");
    return DIFFERS;
}

/* A number of mainspur.h that is no answer. */
static inline Outcome refused_with(Word expected, mainspur_size number) {
    print_expected(expected);
    print("refusal ");
    print_number(number);
    print("\n");
    return DIFFERS;
}

/* Whether room[from..BIG] is as `blank` left it. */
enum { BLANK = 0xA5 };

static inline void blank(byte *room) {
    fill(room, BLANK, BIG);
}

static inline int blank_from(const byte *room, mainspur_size from) {
    for (mainspur_size i = from; i < BIG; i++)
        if (room[i] != BLANK) return 0;
    return 1;
}

#endif
