/* settings: FILE STRING NORMAL-FORM, or FILE STRING STATUS where the string is refused; FILE is decimal, '-' is the empty string. Both
 * calls must agree with the line, and keep what mainspur.h says of the room. */

/* With a room that is a byte short: 1006, untouched; with one that just fits, the same string, and nothing behind it. */
static int keeps_to_its_room(byte file, const byte *string, mainspur_size length, const byte *normal) {
    byte room[BIG];
    blank(room);
    if (mainspur_settings_normalise(file, string, length, room, length - 1) != MAINSPUR_NO_ROOM || !blank_from(room, 0)) return 0;
    return mainspur_settings_normalise(file, string, length, room, length) == length && same(room, normal, length) &&
           blank_from(room, length);
}

static Outcome settings_line(const Word *w, int words) {
    byte string[64], expected[64], room[BIG], ours[2 * BIG], status[2];
    if (words != 3) return faulty("not three words, with one space between two");
    int file = byte_in(w[0]);
    if (file < 0) return faulty("a file that is no number from 0 to 255");
    long length = is(w[1], "-") ? 0 : decode(w[1], string, sizeof string);
    if (length == NOT_HEX) return faulty("a string that is not capital hexadecimal");
    if (length == TOO_LONG) return faulty("a string longer than 64 bytes");
    if (decode(w[2], expected, sizeof expected) < 0) return faulty("neither a normal form nor a status");

    mainspur_size n = (mainspur_size)length;
    blank(room);
    mainspur_size got = mainspur_settings_normalise((byte)file, string, n, room, BIG);
    unsigned checked = mainspur_settings_check((byte)file, string, n);
    int good = got >= 3 && got <= 27;
    if (!good && got != 0x917E && got != 0x919E && got != 0x91F0) return refused_with(w[2], got);
    status[0] = (byte)(got / 256);
    status[1] = (byte)got;
    mainspur_size digits = good ? encode(room, got, ours) : encode(status, 2, ours);
    if (digits != w[2].length || !same(ours, w[2].at, digits)) return other_answer(w[2], ours, digits);
    if (checked != (good ? 0x9100 : got)) {
        status[0] = (byte)(checked / 256);
        status[1] = (byte)checked;
        print_place();
        print("normalised as expected, but checked as ");
        print_bytes(ours, encode(status, 2, ours));
        print("\n");
        return DIFFERS;
    }
    if (good && got != n) return faulty("a normal form of another length than its string");
    if (!blank_from(room, good ? got : 0)) return faulty("bytes of the room changed that must stay");
    if (good && !keeps_to_its_room((byte)file, string, n, room)) return faulty("a small room is not kept to");
    return AGREES;
}
