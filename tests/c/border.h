/* What the C programs of tests/c share: reading, printing and comparing, on mainspur.h and four functions of the C library. */
#ifndef BORDER_H
#define BORDER_H

#include "mainspur.h"

/* of the C library */
int open(const char *name, int flags, ...);
int close(int file);
long read(int file, void *to, mainspur_size n);
long write(int file, const void *from, mainspur_size n);

typedef unsigned char byte;

enum { IMAGE = MAINSPUR_IMAGE_LENGTH, JOURNAL = MAINSPUR_JOURNAL, BIG = 300, TEXT = 1 << 20, DIGITS = 24 };

/* the text that is read */
static byte text[TEXT];
static mainspur_size text_length;

/* how many differ so far; what can't be printed counts too */
static unsigned long differ;

static inline mainspur_size length_of(const char *s) {
    mainspur_size n = 0;
    while (s[n]) n++;
    return n;
}

static inline void print_bytes(const byte *s, mainspur_size n) {
    if (write(1, s, n) != (long)n) differ++;
}

static inline void print(const char *s) {
    print_bytes((const byte *)s, length_of(s));
}

/* A number in decimal, at the end of a room of DIGITS bytes. */
static inline const char *decimal(unsigned long n, char *room) {
    int i = DIGITS - 1;
    room[i] = 0;
    do {
        room[--i] = (char)('0' + n % 10);
        n /= 10;
    } while (n);
    return room + i;
}

static inline void print_number(unsigned long n) {
    char room[DIGITS];
    print(decimal(n, room));
}

static inline int same(const byte *a, const byte *b, mainspur_size n) {
    for (mainspur_size i = 0; i < n; i++)
        if (a[i] != b[i]) return 0;
    return 1;
}

static inline int all_zero(const byte *s, mainspur_size n) {
    for (mainspur_size i = 0; i < n; i++)
        if (s[i]) return 0;
    return 1;
}

static inline void copy(byte *to, const byte *from, mainspur_size n) {
    for (mainspur_size i = 0; i < n; i++) to[i] = from[i];
}

static inline void fill(byte *to, byte b, mainspur_size n) {
    for (mainspur_size i = 0; i < n; i++) to[i] = b;
}

/* The AES blocks that a call computed, as its journal says: bytes 2 and 3, low byte first. */
static inline unsigned blocks_in(const byte *journal) {
    return journal[2] + 256u * journal[3];
}

/* The value of a hexadecimal digit, of either case; -1 for another character. */
static inline int digit(byte c) {
    if (c >= '0' && c <= '9') return c - '0';
    if (c >= 'A' && c <= 'F') return c - 'A' + 10;
    if (c >= 'a' && c <= 'f') return c - 'a' + 10;
    return -1;
}

/* Reads a file into a room of TEXT bytes; whether it was read to its end. One that fills the room may be cut. */
static inline int read_file(int file, byte *to, mainspur_size *length) {
    long n = 0;
    *length = 0;
    while (*length < TEXT && (n = read(file, to + *length, TEXT - *length)) > 0) *length += (mainspur_size)n;
    return n == 0 && *length < TEXT;
}

static inline int read_text(int file) {
    return read_file(file, text, &text_length);
}

#endif
