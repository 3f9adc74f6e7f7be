/* exchanges: COMMAND RANDOM REPLY NAME, played on the tag that the lines before left. RANDOM is at most 20 bytes (zeros behind them), or '-'
 * for none; '?' in REPLY is any digit. Lines that set the tag by hand, in its image (docs/IMAGE.md), and are no cases: 'fresh UID';
 * 'changeable' (file 2's ReadWrite and Change are E); 'session ENC MAC TI' (under key 0, CmdCtr 2; a tap ends); 'taps COUNTER' (one byte;
 * no tap runs). A line that can't be read leaves the tag. */

enum { FILE_2_RULES = 424 + 27, LIVE = 593, LIVE_KEY = 594, LIVE_ENC = 595, LIVE_MAC = 611, LIVE_TI = 627, CMD_CTR = 631, TAP = 666, TAPS = 668, PADDING = 672 };

static byte tag[IMAGE];
static int tag_there;

static void exchanges_begin(void) {
    tag_there = 0;
}

static Outcome set_fresh(const Word *w, int words) {
    byte uid[16];
    long n = words == 2 ? decode(w[1], uid, sizeof uid) : NOT_HEX;
    if (n < 0) return faulty("not 'fresh UID'");
    if (mainspur_fresh(uid, (mainspur_size)n, tag, IMAGE)) return faulty("a UID that is refused");
    tag_there = 1;
    return NO_CASE;
}

static Outcome set_changeable(int words) {
    if (words != 1) return faulty("more than 'changeable'");
    tag[FILE_2_RULES + 1] = 0xEE;
    return NO_CASE;
}

static Outcome set_session(const Word *w, int words) {
    byte enc[16], mac[16], ti[4];
    if (words != 4 || decode(w[1], enc, 16) != 16 || decode(w[2], mac, 16) != 16 || decode(w[3], ti, 4) != 4)
        return faulty("not 'session ENC MAC TI', of 16, 16 and 4 bytes");
    tag[LIVE] = 1;
    tag[LIVE_KEY] = 0;
    copy(tag + LIVE_ENC, enc, 16);
    copy(tag + LIVE_MAC, mac, 16);
    copy(tag + LIVE_TI, ti, 4);
    tag[CMD_CTR] = 2;
    tag[CMD_CTR + 1] = 0;
    fill(tag + TAP, 0, 2);
    fill(tag + PADDING, 0, 12);
    return NO_CASE;
}

static Outcome set_taps(const Word *w, int words) {
    byte counter[1];
    if (words != 2 || decode(w[1], counter, 1) != 1) return faulty("not 'taps COUNTER', of one byte");
    fill(tag + TAP, 0, 18);
    tag[TAPS] = counter[0];
    return NO_CASE;
}

/* Whole bytes of capital digits or '?'. */
static int is_pattern(Word w) {
    for (mainspur_size i = 0; i < w.length; i++)
        if (w.at[i] != '?' && capital_digit(w.at[i]) < 0) return 0;
    return w.length > 0 && w.length % 2 == 0;
}

static int fits(const byte *digits, mainspur_size n, Word pattern) {
    if (n != pattern.length) return 0;
    for (mainspur_size i = 0; i < n; i++)
        if (pattern.at[i] != '?' && pattern.at[i] != digits[i]) return 0;
    return 1;
}

static Outcome exchange(const Word *w, int words) {
    byte command[261], random[MAINSPUR_RANDOM], room[BIG], journal[MAINSPUR_JOURNAL], ours[2 * BIG];
    fill(random, 0, sizeof random);
    if (words < 3) return faulty("fewer than three words");
    long n = decode(w[0], command, sizeof command), drawn = is(w[1], "-") ? 0 : decode(w[1], random, sizeof random);
    if (n == NOT_HEX) return faulty("neither a command in capital hexadecimal nor a word that sets the tag");
    if (n == TOO_LONG) return faulty("a command longer than 261 bytes");
    if (drawn == NOT_HEX) return faulty("random bytes that are not capital hexadecimal");
    if (drawn == TOO_LONG) return faulty("more than 20 random bytes");
    if (!is_pattern(w[2])) return faulty("a reply that is not capital hexadecimal or '?'");

    blank(room);
    mainspur_size got = mainspur_call(tag, IMAGE, command, (mainspur_size)n, random, sizeof random, room, BIG, journal,
                                      sizeof journal);
    if (got < 2 || got > MAINSPUR_ROOM) return refused_with(w[2], got);
    mainspur_size digits = encode(room, got, ours);
    if (!fits(ours, digits, w[2])) return other_answer(w[2], ours, digits);
    if (!blank_from(room, got)) return faulty("bytes of the room changed that must stay");
    return AGREES;
}

static Outcome exchanges_line(const Word *w, int words) {
    if (is(w[0], "fresh")) return set_fresh(w, words);
    if (!tag_there) return faulty("no tag yet: 'fresh UID' comes first");
    if (is(w[0], "changeable")) return set_changeable(words);
    if (is(w[0], "session")) return set_session(w, words);
    if (is(w[0], "taps")) return set_taps(w, words);
    return exchange(w, words);
}
