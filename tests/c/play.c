/* play [GRANTS [COUNTS]] < LOG: plays a log through the image, with mainspur.h alone: a UID, then command, reply and random bytes, a line
 * of hexadecimal each, on standard input. GRANTS is a file with a line for each exchange: why it was granted (02, request 5), in words;
 * COUNTS has the AES blocks that it computed (02, request 10). '-' is no such file.
 * Before the first exchange and after the last it tries every refusal, and what image, room and journal hold then; before the log it
 * judges stored lengths and kept padding, and plays part two on images with a counter in the pending part. Prints what
 * differs, and last 'N exchanges, M differ'; the status is 1 where something differs. */
#include "border.h"
#include "beside.h"
#include "grants.h"
#include "counts.h"

static mainspur_size at;

static void expect(int right, const char *what) {
    if (right) return;
    differ++;
    print("differs: ");
    print(what);
    print("\n");
}

/* The bytes of the next line, at most room of them; -1 at the end of the text or where a line is no hexadecimal. */
static long next_line(byte *to, mainspur_size room) {
    mainspur_size n = 0;
    if (at >= text_length) return -1;
    while (at < text_length && text[at] != '\n') {
        int high = digit(text[at]), low = at + 1 < text_length ? digit(text[at + 1]) : -1;
        if (high < 0 || low < 0 || n >= room) return -1;
        to[n++] = (byte)(high * 16 + low);
        at += 2;
    }
    at++;
    return (long)n;
}

/* A call with all lengths right; its journal is not looked at. */
static mainspur_size play(byte *image, const byte *command, mainspur_size length, const byte *random, byte *room) {
    byte journal[JOURNAL];
    return mainspur_call(image, IMAGE, command, length, random, MAINSPUR_RANDOM, room, BIG, journal, JOURNAL);
}

/* A call with a journal that must be refused with a number, on a copy of an image: image and room stay. The journal stays where its
 * length or the image's is wrong, and else holds zeros. */
static void refused_with(const byte *image, mainspur_size image_length, mainspur_size random_length, mainspur_size room_length,
                         mainspur_size journal_length, mainspur_size number, const char *what) {
    static const byte select[] = {0x00, 0xA4, 0x00, 0x0C, 0x02, 0xE1, 0x10}, random[32] = {7};
    byte now[IMAGE], room[BIG], journal[32], blank[BIG];
    copy(now, image, IMAGE);
    fill(room, 0xA5, BIG);
    fill(journal, 0xA5, sizeof journal);
    fill(blank, 0xA5, BIG);
    expect(mainspur_call(now, image_length, select, sizeof select, random, random_length, room, room_length, journal, journal_length) == number,
           what);
    expect(same(now, image, IMAGE), what);
    expect(same(room, blank, BIG), what);
    if (number == MAINSPUR_WRONG_IMAGE || number == MAINSPUR_WRONG_JOURNAL)
        expect(same(journal, blank, sizeof journal), what);
    else
        expect(all_zero(journal, JOURNAL) && same(journal + JOURNAL, blank, sizeof journal - JOURNAL), what);
}

static void refused(const byte *image, mainspur_size image_length, mainspur_size random_length, mainspur_size room_length,
                    mainspur_size number, const char *what) {
    refused_with(image, image_length, random_length, room_length, JOURNAL, number, what);
}

/* The same with one byte of the image changed, which makes it unsound. */
static void unsound(const byte *image, int place, byte value, const char *what) {
    byte bad[IMAGE];
    copy(bad, image, IMAGE);
    bad[place] = value;
    refused(bad, IMAGE, 20, 258, MAINSPUR_UNSOUND, what);
}

static void call_refusals(const byte *image) {
    byte bad[IMAGE];
    refused(image, IMAGE, 20, 257, MAINSPUR_SMALL_ROOM, "a room of 257 bytes");
    refused(image, IMAGE, 19, 257, MAINSPUR_SMALL_ROOM, "a room of 257 bytes before 19 random bytes");
    refused(image, IMAGE, 19, 258, MAINSPUR_WRONG_RANDOM, "19 random bytes");
    refused(image, IMAGE, 21, 258, MAINSPUR_WRONG_RANDOM, "21 random bytes");
    refused(image, IMAGE - 1, 20, 258, MAINSPUR_WRONG_IMAGE, "an image of 683 bytes");
    refused(image, 0, 19, 257, MAINSPUR_WRONG_IMAGE, "an image of no bytes, before the others");
    refused(image, 672, 20, 258, MAINSPUR_WRONG_IMAGE, "an image of 672 bytes, as version 1 had");
    refused_with(image, IMAGE, 20, 258, 15, MAINSPUR_WRONG_JOURNAL, "a journal of 15 bytes");
    refused_with(image, IMAGE, 20, 258, 17, MAINSPUR_WRONG_JOURNAL, "a journal of 17 bytes");
    refused_with(image, IMAGE, 19, 257, 0, MAINSPUR_WRONG_JOURNAL, "no journal, before refusals 1 and 2");
    refused_with(image, IMAGE - 1, 20, 258, 15, MAINSPUR_WRONG_IMAGE, "an image of 683 bytes before a journal of 15");
    unsound(image, 0, 1, "version 1");
    unsound(image, 0, 3, "version 3");
    unsound(image, 1, 5, "a UID that starts 05");
    unsound(image, 593, 2, "a Boolean of 2");
    unsound(image, 671, 1, "a tap counter over 16,777,215");
    unsound(image, 665, 4, "file 4 selected");
    unsound(image, 505, 2, "a settings string of 2 bytes");
    copy(bad, image, IMAGE);
    bad[1] = 5;
    refused_with(bad, IMAGE, 20, 258, 15, MAINSPUR_WRONG_JOURNAL, "a journal of 15 bytes before an unsound image");
    copy(bad, image, IMAGE);
    fill(bad + 593, 0, IMAGE - 593);
    bad[593] = 1; /* a session */
    bad[664] = 1; /* the application */
    bad[594] = 9;
    refused(bad, IMAGE, 20, 258, MAINSPUR_UNSOUND, "key number 9 in a session");
    refused(bad, IMAGE, 19, 258, MAINSPUR_WRONG_RANDOM, "19 random bytes before an unsound image");
}

static void fresh_refusals(void) {
    static const byte right[7] = {4, 1, 2, 3, 4, 5, 6}, other[7] = {5, 1, 2, 3, 4, 5, 6};
    byte image[IMAGE], blank[IMAGE];
    fill(image, 0xA5, IMAGE);
    fill(blank, 0xA5, IMAGE);
    expect(mainspur_fresh(right, 6, image, IMAGE) == MAINSPUR_WRONG_UID, "a UID of 6 bytes");
    expect(mainspur_fresh(other, 7, image, IMAGE) == MAINSPUR_WRONG_UID, "a fresh UID that starts 05");
    expect(mainspur_fresh(right, 7, image, IMAGE - 1) == MAINSPUR_WRONG_IMAGE, "a fresh image of 683 bytes");
    expect(same(image, blank, IMAGE), "an image after a refused fresh tag");
    expect(mainspur_image_length() == IMAGE, "the length of an image");
}

static void settings_strings(void) {
    byte good[15] = {0x40, 0x00, 0xE0, 0xC1, 0xF1, 0x21, 0x20, 0, 0, 0x43, 0, 0, 0x43, 0, 0};
    byte room[BIG], blank[BIG];
    fill(room, 0xA5, BIG);
    fill(blank, 0xA5, BIG);
    expect(mainspur_settings_check(2, good, 15) == 0x9100, "a good settings string");
    expect(mainspur_settings_check(3, good, 15) == 0x919E, "SDM on file 3");
    expect(mainspur_settings_check(2, good, 14) == 0x917E, "a settings string that is cut");
    expect(mainspur_settings_check(0, good, 15) == 0x91F0 && mainspur_settings_check(4, good, 15) == 0x91F0, "files 0 and 4");
    expect(mainspur_settings_check(9, good, 15) == 0x91F0 && mainspur_settings_check(31, good, 15) == 0x91F0, "files 9 and 31");
    expect(mainspur_settings_check(32, good, 15) == 0x919E && mainspur_settings_check(255, good, 15) == 0x919E, "files over 31");
    expect(mainspur_settings_check(9, good, 0) == 0x91F0 && mainspur_settings_check(32, good, 0) == 0x919E,
           "a file byte before an empty string");
    expect(mainspur_settings_normalise(9, good, 15, room, BIG) == 0x91F0, "normalising for file 9");
    expect(mainspur_settings_normalise(32, good, 0, room, BIG) == 0x919E, "normalising for file 32");
    expect(mainspur_settings_normalise(2, good, 15, room, 14) == MAINSPUR_NO_ROOM, "a room of 14 bytes");
    expect(mainspur_settings_normalise(2, good, 14, room, BIG) == 0x917E, "normalising a settings string that is cut");
    expect(same(room, blank, BIG), "a room after a refused settings string");
    good[4] = 0x01;
    expect(mainspur_settings_normalise(2, good, 15, room, BIG) == 15, "a settings string to be normalised");
    good[4] = 0xF1;
    expect(same(room, good, 15) && same(room + 15, blank + 15, BIG - 15), "the normal settings string");
    good[9] = good[12] = 63;
    expect(mainspur_settings_check(2, good, 15) == 0x919E, "MAC offset 63");
}

/* A good settings string of 27 bytes in file 2: sound with its length, not with a stored length of 28 or 255. */
static void stored_lengths(void) {
    static const byte uid[7] = {4, 1, 2, 3, 4, 5, 6}, select[] = {0x00, 0xA4, 0x00, 0x0C, 0x02, 0xE1, 0x10}, random[20] = {7};
    static const byte longest[27] = {0x40, 0xE0, 0xEE, 0xF1, 0xF1, 0xE1, 0, 0, 0, 0x10, 0, 0, 0x20, 0,
                                     0,    0x20, 0,    0,    0x20, 0,    0, 0x40, 0, 0, 5, 0, 0};
    byte image[IMAGE], now[IMAGE], room[BIG];
    expect(mainspur_settings_check(2, longest, 27) == 0x9100, "a settings string of 27 bytes");
    expect(mainspur_fresh(uid, 7, image, IMAGE) == 0, "a fresh tag for stored lengths");
    copy(image + 451, longest, 27);
    image[506] = 27;
    copy(now, image, IMAGE);
    expect(play(now, select, sizeof select, random, room) == 2, "a stored length of 27");
    unsound(image, 506, 28, "a stored length of 28");
    unsound(image, 506, 255, "a stored length of 255");
}

/* 02, request 3: the twelve bytes of padding. Where no tap runs they are zeros, each of them; where one runs any will do, and an accepted
 * read of that tap leaves the whole image as it is. */
static void kept_padding(void) {
    static const byte uid[7] = {4, 1, 2, 3, 4, 5, 6}, random[20] = {7}, read[] = {0x00, 0xB0, 0x00, 0x00, 0x00};
    static const byte string[15] = {0x40, 0x00, 0xE0, 0xC1, 0xF1, 0x21, 0x20, 0, 0, 0x43, 0, 0, 0x43, 0, 0};
    byte image[IMAGE], now[IMAGE], room[BIG];
    expect(mainspur_fresh(uid, 7, image, IMAGE) == 0, "a fresh tag for the padding");
    expect(all_zero(image + 672, 12), "the padding of a fresh tag");
    copy(image + 451, string, 15);
    image[506] = 15;
    image[664] = 1; /* the application */
    image[665] = 2; /* file 2 is selected */
    for (int i = 672; i < IMAGE; i++) unsound(image, i, 1, "padding where no tap runs");
    copy(now, image, IMAGE);
    expect(play(now, read, sizeof read, random, room) == 258, "a read that starts a tap");
    expect(same(now + 672, random, 12), "the padding that it draws");
    image[666] = image[667] = 1; /* a tap runs, by ISOReadBinary */
    fill(image + 672, 0xA5, 12);
    copy(now, image, IMAGE);
    expect(play(now, read, sizeof read, random, room) == 258, "a read of a tap that runs");
    expect(same(now, image, IMAGE), "the image behind it");
    expect(play(now, read, 4, random, room) == 2, "a read without Le");
    expect(all_zero(now + 666, 2) && all_zero(now + 672, 12), "the padding where the tap has ended");
}

/* 01's example in file 2 with the MAC at 240: a read that mirrors shows it at the file's end. At 241 it would end behind the file, and
 * the image is not sound. */
static void last_place(void) {
    static const byte uid[7] = {4, 1, 2, 3, 4, 5, 6}, random[20] = {7}, read[] = {0x00, 0xB0, 0x00, 0xF0, 0x10};
    static const byte string[15] = {0x40, 0x00, 0xE0, 0xC1, 0xF1, 0x21, 0x20, 0, 0, 0, 0, 0, 240, 0, 0};
    byte image[IMAGE], now[IMAGE], room[BIG], blank[BIG];
    fill(blank, 0xA5, BIG);
    fill(room, 0xA5, BIG);
    expect(mainspur_fresh(uid, 7, image, IMAGE) == 0, "a fresh tag for the last place");
    copy(image + 451, string, 15);
    image[506] = 15;
    image[664] = 1; /* the application */
    image[665] = 2; /* file 2 is selected */
    copy(now, image, IMAGE);
    expect(play(now, read, sizeof read, random, room) == 18, "a mirror at the file's end");
    expect(room[16] == 0x90 && room[17] == 0x00 && room[0] != 0 && room[15] != 0, "its digits");
    fill(room, 0xA5, BIG);
    image[451 + 12] = 241;
    copy(now, image, IMAGE);
    expect(play(now, read, sizeof read, random, room) == MAINSPUR_UNSOUND, "a mirror that ends behind the file");
    expect(same(now, image, IMAGE) && same(room, blank, BIG), "image and room behind it");
}

/* Part two on an image that holds a pending part of 71 (first is 1) or 77 with counter 0x0105 and TI A1 A2 A3 A4: 71 opens a
 * session with CmdCtr 0 and TI from the random bytes, 77 keeps both. Key 0 is zeros; the command is E(key 0; RndA, RndB'), with
 * RndA 00 to 0F and RndB 10 to 1F. */
static void part_two(byte first) {
    static const byte uid[7] = {4, 1, 2, 3, 4, 5, 6}, random[20] = {[16] = 0xB1, 0xB2, 0xB3, 0xB4};
    static const byte kept[6] = {0xA1, 0xA2, 0xA3, 0xA4, 0x05, 0x01}, opened[6] = {0xB1, 0xB2, 0xB3, 0xB4, 0, 0};
    static const byte command[38] = {0x90, 0xAF, 0, 0, 32, 0x7A, 0xCA, 0x0F, 0xD9, 0xBC, 0xD6, 0xEC, 0x7C, 0x9F, 0x97,
                                     0x46, 0x66, 0x16, 0xE6, 0xA2, 0x82, 0xCD, 0xF2, 0x9E, 0xAD, 0x8D, 0xFE, 0x62, 0x2D,
                                     0xF8, 0xBF, 0x97, 0x97, 0x25, 0xEF, 0xF1, 0x31, 0};
    byte image[IMAGE], room[BIG];
    mainspur_size n = first ? 34 : 18;
    expect(mainspur_fresh(uid, 7, image, IMAGE) == 0, "a fresh tag for part two");
    image[633] = 1; /* a pending part two, of key 0 */
    image[634] = first;
    for (int i = 0; i < 16; i++) image[636 + i] = (byte)(0x10 + i);
    copy(image + 658, kept, 6);
    image[664] = 1; /* the application */
    expect(play(image, command, sizeof command, random, room) == n, "the length of part two's reply");
    expect(room[n - 2] == 0x91 && room[n - 1] == 0x00, "the status of part two");
    expect(image[593] == 1 && image[633] == 0, "a session after part two");
    expect(same(image + 627, first ? opened : kept, 6), first ? "TI and CmdCtr after 71" : "TI and CmdCtr after 77");
}

/* One exchange of the log, its grant and its count. */
static int exchange_differs(byte *image, const byte *command, long c, const byte *reply, long r, const byte *random, long k) {
    byte room[BIG], journal[JOURNAL], blank[BIG];
    fill(room, 0xA5, BIG);
    fill(journal, 0xA5, JOURNAL);
    fill(blank, 0xA5, BIG);
    mainspur_size got = mainspur_call(image, IMAGE, command, (mainspur_size)c, random, (mainspur_size)k, room, BIG, journal, JOURNAL);
    int alike = got == (mainspur_size)r && same(room, reply, got) && same(room + got, blank + got, BIG - got);
    int granted = next_grant(journal), counted = next_count(journal);
    return !alike || !granted || !counted || !all_zero(journal + 4, JOURNAL - 4);
}

static void before_the_log(void) {
    fresh_refusals();
    settings_strings();
    stored_lengths();
    kept_padding();
    last_place();
    part_two(1);
    part_two(0);
}

int main(int count, char **words) {
    byte uid[16], image[IMAGE], command[BIG], reply[BIG], random[BIG];
    unsigned long exchanges = 0, wrong = 0;
    long n;
    int whole = read_text(0) && (count < 2 || read_beside(&grants, words[1])) && (count < 3 || read_beside(&counts, words[2]));
    before_the_log();
    n = next_line(uid, sizeof uid);
    expect(n >= 0 && mainspur_fresh(uid, (mainspur_size)n, image, IMAGE) == 0, "the fresh tag");
    if (differ) return 1;
    call_refusals(image);
    for (;;) {
        long c = next_line(command, BIG), r = next_line(reply, BIG), k = next_line(random, BIG);
        if (c < 0 || r < 0 || k < 0) break;
        exchanges++;
        if (!exchange_differs(image, command, c, reply, r, random, k)) continue;
        wrong++;
        print("differs: exchange ");
        print_number(exchanges);
        print("\n");
    }
    expect(at >= text_length && whole, "the log was not read to its end");
    expect(no_more(&grants), "a grant for which there is no exchange");
    expect(no_more(&counts), "a count for which there is no exchange");
    call_refusals(image);
    print_number(exchanges);
    print(" exchanges, ");
    print_number(wrong + differ);
    print(" differ\n");
    return wrong + differ != 0;
}
