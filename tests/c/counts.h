/* How many AES blocks each exchange of a log computed (02, request 10), a decimal number an exchange. */

static Beside counts;

/* Takes the next line; whether it is what a journal says. */
static int next_count(const byte *journal) {
    char digits[DIGITS];
    return next_is(&counts, "count", decimal(blocks_in(journal), digits), "");
}
