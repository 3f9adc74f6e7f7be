/* cases KIND FILE..: plays stored cases through the C border, with mainspur.h alone, a line each; kinds/KIND.h has a kind's format. Empty lines
 * and lines that begin with '#' are no cases; a carriage return at a line's end is passed over, and the last line may lack its line feed.
 * Prints each case that differs, 'FILE:LINE: expected .., ours ..', or why the line can't be read, which counts as differing, as does a
 * file that can't be read or has no case. Last 'N cases, M differ'; the status is 1 where something differs. */
#include "cases.h"
#include "kinds/settings.h"
#include "kinds/exchanges.h"
#include "kinds/counts.h"

typedef struct {
    const char *name;
    void (*begin)(void); /* before each file, or none */
    Outcome (*line)(const Word *words, int n);
} Kind;

static const Kind kinds[] = {
    {"settings", 0, settings_line},
    {"exchanges", exchanges_begin, exchanges_line},
    {"counts", 0, counts_line},
};

static unsigned long cases;

static void play_line(const Kind *kind, const byte *line, mainspur_size n) {
    Word words[WORDS];
    if (n > 0 && line[n - 1] == '\r') n--;
    if (n == 0 || line[0] == '#') return;
    Outcome o = kind->line(words, split(line, n, words));
    if (o != NO_CASE) cases++;
    if (o == DIFFERS) differ++;
}

static void play_text(const Kind *kind) {
    line_number = 0;
    if (kind->begin) kind->begin();
    for (mainspur_size at = 0, end; at < text_length; at = end + 1) {
        for (end = at; end < text_length && text[end] != '\n';) end++;
        line_number++;
        play_line(kind, text + at, end - at);
    }
}

/* A file in which nothing could be played. */
static void unplayed(const char *why) {
    differ++;
    print(file_name);
    print(": ");
    print(why);
    print("\n");
}

static void play_file(const Kind *kind) {
    int file = open(file_name, 0);
    unsigned long before = cases;
    if (file < 0) {
        unplayed("can't be opened");
        return;
    }
    int whole = read_text(file);
    close(file);
    if (!whole) {
        unplayed(text_length < TEXT ? "can't be read" : "has a megabyte or more, and is not played");
        return;
    }
    play_text(kind);
    if (cases == before) unplayed("no case in it");
}

int main(int argc, char **argv) {
    const Kind *kind = 0;
    for (unsigned i = 0; argc > 1 && i < sizeof kinds / sizeof *kinds; i++)
        if (is((Word){(const byte *)argv[1], length_of(argv[1])}, kinds[i].name)) kind = kinds + i;
    if (!kind || argc < 3) {
        print("cases: no such kind, or no file\n");
        return 2;
    }
    for (int i = 2; i < argc; i++) {
        file_name = argv[i];
        play_file(kind);
    }
    print_number(cases);
    print(" cases, ");
    print_number(differ);
    print(" differ\n");
    return differ != 0;
}
