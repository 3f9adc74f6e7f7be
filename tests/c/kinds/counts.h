/* counts: STRING BLOCKS, a settings string of file 2 in normal form, and the AES blocks of a mirrored read (02, request 10; decimal). A fresh
 * tag gets the string by hand, in its image (docs/IMAGE.md), with file 2 selected, and is tapped once: ISOReadBinary of the whole file. */

enum { FILE_2_LENGTH = 506, APPLICATION = 664, SELECTED = 665 };

/* A tag that was never tapped. */
static void set_untapped(byte *image, const byte *string, mainspur_size n) {
    static const byte uid[7] = {4, 1, 2, 3, 4, 5, 6};
    mainspur_fresh(uid, sizeof uid, image, IMAGE);
    copy(image + FILE_2_RULES, string, n);
    image[FILE_2_LENGTH] = (byte)n;
    image[APPLICATION] = 1;
    image[SELECTED] = 2;
}

/* A tap whose reply is a status alone. */
static Outcome refused_tap(Word expected, const byte *status) {
    byte digits[4];
    print_expected(expected);
    print("status ");
    print_bytes(digits, encode(status, 2, digits));
    print("\n");
    return DIFFERS;
}

static Outcome counts_line(const Word *w, int words) {
    static const byte read[] = {0x00, 0xB0, 0x00, 0x00, 0x00}, random[MAINSPUR_RANDOM] = {7};
    byte string[27], image[IMAGE], room[BIG], journal[JOURNAL];
    char digits[DIGITS];
    if (words != 2) return faulty("not two words, with one space between them");
    long n = decode(w[0], string, sizeof string);
    if (n == NOT_HEX) return faulty("a string that is not capital hexadecimal");
    if (n == TOO_LONG) return faulty("a string longer than 27 bytes");
    int blocks = byte_in(w[1]);
    if (blocks < 0) return faulty("blocks that are no number from 0 to 255");

    set_untapped(image, string, (mainspur_size)n);
    fill(journal, BLANK, JOURNAL);
    mainspur_size got = mainspur_call(image, IMAGE, read, sizeof read, random, sizeof random, room, BIG, journal, JOURNAL);
    if (got == 2) return refused_tap(w[1], room);
    if (got != MAINSPUR_ROOM) return refused_with(w[1], got);
    if (!image[TAP]) return faulty("a read that is no tap");
    const char *ours = decimal(blocks_in(journal), digits);
    if (blocks_in(journal) != (unsigned)blocks) return other_answer(w[1], (const byte *)ours, length_of(ours));
    if (!all_zero(journal + 4, JOURNAL - 4)) return faulty("bytes of the journal that must be zeros");
    return AGREES;
}
