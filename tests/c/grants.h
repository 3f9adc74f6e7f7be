/* Why each exchange of a log was granted (02, request 5), a line of words an exchange: 'key RIGHT', 'tap SDMFileRead', 'E RIGHT', 'none',
 * 'refused', or '-' where the decision was never got to. */

static Beside grants;

/* The words of a journal; none for numbers that mainspur.h does not have. */
static const char *how_words(byte how) {
    static const char *const words[] = {"-", "key", "tap", "E", "none", "refused"};
    return how < 6 ? words[how] : "?";
}

static const char *right_words(byte right) {
    static const char *const words[] = {"", " Read", " Write", " ReadWrite", " Change", " SDMMetaRead", " SDMFileRead", " SDMCtrRet"};
    return right < 8 ? words[right] : " ?";
}

/* Takes the next line; whether it is what a journal says. */
static int next_grant(const byte *journal) {
    return next_is(&grants, "grant", how_words(journal[0]), right_words(journal[1]));
}
