/* Mainspur: a software NTAG 424 DNA tag, for C on x86-64 Linux. Link libstand.a (`rt lib` in crates/stand makes crates/stand/out/libstand.a).
 *
 * A tag's state is an image of mainspur_image_length() bytes that the caller keeps (docs/IMAGE.md). Images may be copied
 * and stored. No call keeps a pointer, allocates, or uses anything but its arguments. What each call answers and leaves is
 * proved (crates/stand), whatever bytes it is given.
 *
 * Pointers are trusted: a call can't see whether one is right. A slice of bytes goes as a pointer and a length, and the
 * caller must keep, of every slice and as long as the call runs:
 *   - so many bytes, all of them set, can be read behind the pointer, and be written where it is not const (image, room);
 *   - the pointer is not null, also where the length is 0;
 *   - a slice that the call may write overlaps no other that it is given: image and room, room and command, ..;
 *   - no other thread writes any of them, or reads those that the call may write.
 * Where one of these is broken, nothing that is said below holds.
 *
 * The header includes nothing, so that it compiles without a C library. */
#ifndef MAINSPUR_H
#define MAINSPUR_H

#ifdef __cplusplus
extern "C" {
#endif

typedef __SIZE_TYPE__ mainspur_size;

#define MAINSPUR_IMAGE_LENGTH 684 /* bytes of an image */
#define MAINSPUR_ROOM 258         /* bytes that a reply room must have at least */
#define MAINSPUR_RANDOM 20        /* random bytes of a call */
#define MAINSPUR_JOURNAL 16       /* bytes of a journal */

/* Refusals. Every refusal leaves image and room as they were. */
#define MAINSPUR_SMALL_ROOM 1001   /* refusal 1: reply room under 258 bytes */
#define MAINSPUR_WRONG_RANDOM 1002 /* refusal 2: not exactly 20 random bytes */
#define MAINSPUR_UNSOUND 1003      /* refusal 3: the image holds no sound state */
#define MAINSPUR_WRONG_UID 1004    /* refusal 4: UID not 7 bytes, or its first byte not 04 */
#define MAINSPUR_WRONG_IMAGE 1005  /* an image of another length than 684; this comes before refusals 1 to 4 */
#define MAINSPUR_NO_ROOM 1006      /* a room that the normal settings string does not fit in */
#define MAINSPUR_WRONG_JOURNAL 1007 /* a journal of another length than 16; this comes next after the image's */

/* A journal: why a command was granted, or not, and how many AES blocks the call computed. Byte 0 says how, byte 1 under which right;
 * bytes 2 and 3 are the number of blocks, low byte first, key schedules not counted; the others are 0.
 * A key is named before E, the tap rule before E, and of several rights alike the first of this list. What refuses behind the
 * access decision (a wrong length, MAC or value, a full CmdCtr, a tap that can't start) leaves its answer. A refusal has the blocks that were
 * computed before it. A mirrored read has at most MAINSPUR_TAP_BLOCKS, any call at most MAINSPUR_BLOCKS. */
#define MAINSPUR_TAP_BLOCKS 28
#define MAINSPUR_BLOCKS 35
#define MAINSPUR_NOT_REACHED 0 /* how: refused before the decision, by steps 1 to 5, or by refusals 1 to 3 */
#define MAINSPUR_BY_KEY 1      /* how: the session's key is the right's condition */
#define MAINSPUR_BY_TAP 2      /* how: the tap rule, under SDMFileRead */
#define MAINSPUR_BY_E 3        /* how: free, the right's condition is E */
#define MAINSPUR_NO_RIGHT 4    /* how: the command is under none of the rights */
#define MAINSPUR_REFUSED 5     /* how: the decision refuses */

#define MAINSPUR_RIGHT_NONE 0 /* under no right */
#define MAINSPUR_RIGHT_READ 1
#define MAINSPUR_RIGHT_WRITE 2
#define MAINSPUR_RIGHT_READ_WRITE 3
#define MAINSPUR_RIGHT_CHANGE 4
#define MAINSPUR_RIGHT_SDM_META_READ 5 /* grants nothing: no call answers it */
#define MAINSPUR_RIGHT_SDM_FILE_READ 6
#define MAINSPUR_RIGHT_SDM_CTR_RET 7

/* 684. */
mainspur_size mainspur_image_length(void);

/* A fresh tag with a UID.
 * 0: the image holds the fresh tag.
 * MAINSPUR_WRONG_IMAGE, MAINSPUR_WRONG_UID: the image is as it was. */
mainspur_size mainspur_fresh(const unsigned char *uid, mainspur_size uid_length, unsigned char *image,
                             mainspur_size image_length);

/* The tag's answer to a command.
 * 2 to 258: the length of the reply, data and two status bytes. It stands at the front of the room, the rest of the room
 * is as it was, the image holds the next state, and the journal why the command was granted or not and how many blocks it took.
 * MAINSPUR_WRONG_IMAGE, MAINSPUR_WRONG_JOURNAL: image, room and journal are as they were. Then MAINSPUR_SMALL_ROOM,
 * MAINSPUR_WRONG_RANDOM, MAINSPUR_UNSOUND, in this order: image and room are as they were, and the journal holds zeros. Bytes of the
 * right length that are no image at all (another version, a Boolean over 1) are unsound. */
mainspur_size mainspur_call(unsigned char *image, mainspur_size image_length, const unsigned char *command,
                            mainspur_size command_length, const unsigned char *random, mainspur_size random_length,
                            unsigned char *room, mainspur_size room_length, unsigned char *journal,
                            mainspur_size journal_length);

/* Whether a settings string is good for a file: 0x9100, or the status word 0x917E (length) or 0x919E (parameter) that
 * ChangeFileSettings would answer. A file byte over 31 is 0x919E, another that is not 1 to 3 is 0x91F0, whatever the string. */
unsigned short mainspur_settings_check(unsigned char file, const unsigned char *text, mainspur_size text_length);

/* The normal form of a settings string.
 * 3 to 27: its length, which is that of the string. It stands at the front of the room, and the rest is as it was.
 * 0x919E, 0x91F0 (a file byte over 31, or not 1 to 3), 0x917E, 0x919E (a bad string), MAINSPUR_NO_ROOM, in this order: the
 * room is as it was. */
mainspur_size mainspur_settings_normalise(unsigned char file, const unsigned char *text, mainspur_size text_length,
                                          unsigned char *room, mainspur_size room_length);

#ifdef __cplusplus
}
#endif

#endif
