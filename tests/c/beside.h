/* A file beside a log, with a line for each exchange: NAME.grants (grants.h) or NAME.counts (counts.h). */

typedef struct {
    byte text[TEXT];
    mainspur_size length, at;
    int there;
} Beside;

/* Reads such a file; whether it was read to its end. '-' is none. */
static int read_beside(Beside *b, const char *name) {
    if (name[0] == '-' && name[1] == 0) return 1;
    int file = open(name, 0), whole = file >= 0 && read_file(file, b->text, &b->length);
    if (file >= 0) close(file);
    b->there = 1;
    return whole;
}

/* Whether a word stands at a place of the file. */
static int stands(const Beside *b, mainspur_size place, const char *word) {
    mainspur_size n = length_of(word);
    return place + n <= b->length && same(b->text + place, (const byte *)word, n);
}

/* Takes the next line; whether it is ours, in two parts. Where no file is there any line of ours will do. */
static int next_is(Beside *b, const char *what, const char *ours, const char *rest) {
    mainspur_size from = b->at, n = length_of(ours) + length_of(rest);
    if (!b->there) return 1;
    while (b->at < b->length && b->text[b->at] != '\n') b->at++;
    int alike = from < b->length && b->at - from == n && stands(b, from, ours) && stands(b, from + length_of(ours), rest);
    if (!alike) {
        print(what);
        print(" ");
        print_bytes(b->text + from, b->at - from);
        print(", ours ");
        print(ours);
        print(rest);
        print("\n");
    }
    b->at++;
    return alike;
}

static int no_more(const Beside *b) {
    return !b->there || b->at >= b->length;
}
