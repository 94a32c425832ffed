/*
 * depot.h: the shared depot box, its host side and its scan lines, for C.
 *
 * Two archives, which ./lib at the root builds. Link what you call; the two share no symbol.
 *   target/staticlib/libdepot_c.a  the box: depot_fresh, depot_test, depot_frame, depot_sighting, depot_tick
 *   target/staticlib/libhost_c.a   the host side: depot_make, depot_read, depot_block, depot_timer, depot_sizes, depot_record,
 *                                  depot_line, depot_lines
 * Every function below is proved to keep its promise (crates/depot_c, crates/host_c): for any numbers and any octets it ends
 * with one of the answers named here, and a refused call leaves all that it was lent as it was.
 *
 * What a call writes: depot_test and depot_read nothing, they only read; depot_fresh, depot_sighting and depot_tick the store;
 * depot_frame store and out; all others out alone.
 *
 * What the caller owes, and no proof can give: a pointer is never NULL and points to as many octets, or numbers, as the length
 * behind it says (a length of 0 is fine, with a pointer to anything), and an output overlaps no other buffer of the call.
 *
 * There is no hidden state: the box is the store, DEPOT_STORE_SIZE octets that the caller keeps. Two stores are two boxes.
 */
#ifndef DEPOT_H
#define DEPOT_H

#include <stddef.h>
#include <stdint.h>

#ifdef __cplusplus
extern "C" {
#endif

/* ---- sizes, in octets */

#define DEPOT_STORE_SIZE 40960  /* a store */
#define DEPOT_REPLY_SIZE 842    /* the shortest output that depot_frame takes; the longest frame */
#define DEPOT_BLOCK_SIZE 14     /* a configuration block */
#define DEPOT_RECORD_SIZE 13    /* a record: UID 8, timer 4, antenna mask 1 */
#define DEPOT_DESKS 8           /* desks 0 to 7 */

/* ---- sizes, in numbers of 64 bits, and which of the numbers is what */

#define DEPOT_TIMER_FIELDS 3         /* depot_timer */
#define DEPOT_TIMER_HOUR 0
#define DEPOT_TIMER_MINUTE 1
#define DEPOT_TIMER_MILLISECONDS 2

#define DEPOT_SIZES_FIELDS 3         /* depot_sizes */
#define DEPOT_SIZES_TAB_SIZE 0
#define DEPOT_SIZES_TAB_START 1
#define DEPOT_SIZES_TAB_LEN 2

#define DEPOT_RECORD_FIELDS 5        /* depot_record */
#define DEPOT_RECORD_UID 0
#define DEPOT_RECORD_HOUR 1
#define DEPOT_RECORD_MINUTE 2
#define DEPOT_RECORD_MILLISECONDS 3
#define DEPOT_RECORD_MASK 4

/* ---- answers */

/*
 * One number of 64 bits, and its range says what it is. No two ranges share a number (proved: crates/codes, Ranges).
 *
 *   from                     what
 *   0                        done, and there is nothing to say
 *   1 to 63                  refused, by the number in the paper
 *   64, 65                   a sighting: recorded, lost
 *   2^16 + ticks             a sighting: ignored; the lock has so many ticks left, from 1 to VALID-TIME in force
 *   2^32 + s * 2^24 + a * 2^16 + n
 *                            what the reader found: status s, data of n octets from place a on
 *   2^63 + n                 n octets, or n numbers, stand at the start of the output
 * Set aside, so that no number above has to move; no call gives these yet:
 *   2 * 2^32 + q * 2^8 + p   a question: q is the number of the sighting, p the place of the latest record, from 1; 0 for none
 *   3 * 2^32 + p             a lookup: the place of the record; 0 for none
 *   4 * 2^32                 the checker: all agrees
 *   5 * 2^32 + e * 2^16 + o  the checker: entry e differs at octet o
 *   6 * 2^32 + o             the checker: refusal 9, at octet o of the file
 *   2^48 + t                 the receiver waits; in this and the next two, t is how many octets it took, below 2^32
 *   2 * 2^48 + n * 2^32 + t  the receiver has a frame of n octets
 *   3 * 2^48 + r * 2^32 + t  the receiver dropped what was begun, with refusal r
 */
#define DEPOT_DONE 0

#define DEPOT_REFUSED(code) ((code) >= 1 && (code) <= 63)
#define DEPOT_UNSOUND 1         /* the store has the wrong size, or is not sound */
#define DEPOT_SMALL_BUFFER 2    /* the reply buffer is shorter than DEPOT_REPLY_SIZE */
#define DEPOT_NO_OCTETS 3       /* a frame of no octets at all */
#define DEPOT_TOO_SHORT 31      /* a frame shorter than its kind allows */
#define DEPOT_TOO_LONG 32       /* a frame longer than its kind allows */
#define DEPOT_LENGTH_DIFFERS 33 /* its length field says another number of octets than were received */
#define DEPOT_WRONG_CHECK 4     /* the CRC is wrong */
#define DEPOT_NO_DESK 5         /* a desk above 7 */
#define DEPOT_OUT_OF_RANGE 6    /* an argument out of range */
#define DEPOT_NO_ROOM 7         /* the output has too little room */
#define DEPOT_NOT_THE_REPLY 8   /* a sound frame that does not answer the request; data that no reply to the command carries */

/*
 * For installers: which length is wrong, and what to look at. A first octet of 2 means an advanced frame, whose second and third octet
 * are its length, most significant first; any other first octet is a standard frame's length. The length counts every octet of the
 * frame, length field and CRC too. The four stand in this order, before DEPOT_WRONG_CHECK: 31 and 32 are said by the number of octets
 * received and the first of them, 33 by the length field, which is not read before.
 *    3  Nothing came. Look at the plug, the cable and the power at its far end; then at a driver that calls without having read.
 *   31  To the box below 5 octets, or 7 after a first octet of 2; to the reader below 6 or 8. The frame breaks off. Look at a loose
 *       plug; then at a driver that waits too short a time for the next octet.
 *   32  Above 255 octets, or DEPOT_REPLY_SIZE after a first octet of 2. Look at a driver that joins frames, or that loses the first
 *       octet of a long one; then at the settings of the line, for noise without a pause.
 *   33  As many octets as the kind can have, but the frame says another number. Look at a wrong driver: one for other frames (0, 1, 3
 *       and 4 are never a length, nor is 5 in a reply), that counts without the field or the CRC, or that puts the low octet first.
 *       Where it comes now and then only, octets are lost or added on the way: look at the plug and the settings of the line.
 */

#define DEPOT_RECORDED 64
#define DEPOT_LOST 65           /* the desk holds 64 records; the overflow mark is set */
#define DEPOT_IGNORED(code) ((code) >> 16 == 1)             /* the UID is locked at this desk */
#define DEPOT_TICKS_LEFT(code) ((uint16_t)((code) & 65535)) /* where DEPOT_IGNORED(code): the ticks of 100 ms that its lock has left */

#define DEPOT_WRITTEN(code) ((code) >> 63 == 1)
#define DEPOT_LENGTH(code) ((size_t)((code) & UINT64_C(0x7FFFFFFFFFFFFFFF)))

#define DEPOT_READ(code) ((code) >> 32 == 1)
#define DEPOT_STATUS(code) ((uint8_t)((code) >> 24 & 255))
#define DEPOT_START(code) ((size_t)((code) >> 16 & 255))
#define DEPOT_DATA_LENGTH(code) ((size_t)((code) & 65535))

/* ---- frame kinds and control bytes, for depot_make and depot_read */

#define DEPOT_STANDARD 0
#define DEPOT_ADVANCED 1

#define DEPOT_BAUD 0x52           /* a: 0 */
#define DEPOT_RESET 0x63
#define DEPOT_SYSTEM_RESET 0x64
#define DEPOT_READ_BLOCK 0x80     /* a: CFG-ADR */
#define DEPOT_WRITE_BLOCK 0x81    /* a: CFG-ADR; bytes: the block */
#define DEPOT_SAVE_BLOCKS 0x82    /* a: CFG-ADR */
#define DEPOT_RESTORE_BLOCKS 0x83 /* a: CFG-ADR */
#define DEPOT_SET_TIMER 0x85      /* a: hour; b: minute; c: milliseconds */
#define DEPOT_SEND_TIMER 0x86
#define DEPOT_LOGIN 0xA0          /* a: the password, four octets as a number, most significant first */
#define DEPOT_READ_RECORDS 0x22   /* a: how many */
#define DEPOT_SEND_TABLE 0x31
#define DEPOT_REMOVE_RECORDS 0x32
#define DEPOT_CLEAR_RECORDS 0x33

#define DEPOT_EEPROM 0x80         /* bit 7 of CFG-ADR: the EEPROM blocks, and not those in RAM */
#define DEPOT_ALL_BLOCKS 0x40     /* bit 6 of CFG-ADR: all blocks, in 0x82 and 0x83 */

/*
 * A desk's password is bytes 0 to 3 of block 0 in its EEPROM, and RAM has a block 0 too.
 * DEPOT_WRITE_BLOCK of block 0 without DEPOT_EEPROM is answered 0x16 and changes nothing: no login would look at it there.
 * With DEPOT_EEPROM it is answered 0x00, and counts from the next login on. RAM then has the old password until a reset, and until
 * that reset DEPOT_SAVE_BLOCKS of all blocks, or of block 0, PUTS THE OLD PASSWORD BACK. So after a new password: DEPOT_RESET.
 * DEPOT_RESTORE_BLOCKS of all blocks, or of block 0, sets the password to zeros with DEPOT_EEPROM; without it RAM's block 0, which
 * the next save of all blocks, or of block 0, makes the password.
 */

/* ---- the box */

/*
 * Makes a fresh store: defaults in both memories of each desk, nobody logged in, no records, no locks, timer 0.
 * Answers: DEPOT_DONE; DEPOT_UNSOUND where store_len is not DEPOT_STORE_SIZE.
 * Afterwards: done, every octet of the store is that of a fresh one, whatever stood there; refused, all is as before.
 */
uint64_t depot_fresh(uint8_t *store, size_t store_len);

/*
 * Is this store sound: one that was kept in a file, say. The three calls below make the same test first. Only reads.
 * Answers: DEPOT_DONE; DEPOT_UNSOUND.
 */
uint64_t depot_test(const uint8_t *store, size_t store_len);

/*
 * A frame arrives on the line, and the desk that it names answers.
 * Answers: DEPOT_WRITTEN, a reply of DEPOT_LENGTH (n) octets; refusals 1, 2, 3, 31, 32, 33, 4, 5, in this order the first that fits.
 * Afterwards: answered, the reply stands in out[0] to out[n - 1], the octets behind it are as before, and the store is sound
 * and holds what the command did; refused, store and output are as before.
 */
uint64_t depot_frame(uint8_t *store, size_t store_len, const uint8_t *frame, size_t frame_len, uint8_t *out, size_t out_len);

/*
 * A tag is sighted at a desk by the antennas of a mask from 1 to 255. Its UID is eight octets as one number, the first of them most
 * significant.
 * Answers: DEPOT_IGNORED(code), DEPOT_LOST, DEPOT_RECORDED; refusals 1, 5, 6 (a mask of 0 or above 255), the least that fits.
 * An ignored one tells how long the tag is held back: DEPOT_TICKS_LEFT(code) is what its lock at this desk has left, VALID-TIME right
 * after it was recorded, 1 before its last tick, never 0. Being ignored does not lengthen it. The lock can end sooner: a reset and
 * DEPOT_CLEAR_RECORDS end all locks of a desk, and where 64 stand a new one ends the oldest.
 * Afterwards: the store is sound and holds what the sighting did, which is nothing where it was ignored; refused, it is as before.
 */
uint64_t depot_sighting(uint8_t *store, size_t store_len, uint64_t desk, uint64_t uid, uint64_t mask);

/*
 * 100 ms pass for all desks.
 * Answers: DEPOT_DONE; DEPOT_UNSOUND.
 * Afterwards: the store is sound, all timers and locks have moved on; refused, it is as before.
 */
uint64_t depot_tick(uint8_t *store, size_t store_len);

/* ---- the host side */

/*
 * Makes a request: the frame that asks a desk for what control, a, b and c say. Numbers that a command does not have are not
 * looked at, and bytes only by DEPOT_WRITE_BLOCK (elsewhere any length is fine, 0 too).
 * Answers: DEPOT_WRITTEN, a frame of DEPOT_LENGTH octets; refusals, the least that fits:
 *   5  a desk above 7, whatever the rest is
 *   6  a kind that is neither 0 nor 1; a control that is none of the fourteen; a write whose bytes_len is not DEPOT_BLOCK_SIZE;
 *      a number that its field can't hold, or that a logged-in desk would answer 0x11 (a password into RAM
 *      is answered 0x16, and so it is made)
 *   7  the frame does not fit in out_len octets
 * Afterwards: made, the frame stands at the start of out and the octets behind it are as before; refused, out is as before.
 */
uint64_t depot_make(uint64_t kind, uint64_t desk, uint64_t control, uint64_t a, uint64_t b, uint64_t c, const uint8_t *bytes, size_t bytes_len, uint8_t *out, size_t out_len);

/*
 * Reads the reply to a request, which is given by the same arguments as to depot_make.
 * Answers: DEPOT_READ: the status is DEPOT_STATUS, and the data are DEPOT_DATA_LENGTH octets from reply[DEPOT_START] on;
 * refusals 3, 31, 32, 33, 4, 8, in this order the first that fits. 8 is given where kind, address or control byte differ, where no
 * sound store answers that request with that status and data length, where a record count does not fit the length, and to what is no
 * request.
 * Only reads.
 */
uint64_t depot_read(uint64_t kind, uint64_t desk, uint64_t control, uint64_t a, uint64_t b, uint64_t c, const uint8_t *bytes, size_t bytes_len, const uint8_t *reply, size_t reply_len);

/* ---- what the data of a reply say: sent are the data, from reply[DEPOT_START] on, as depot_read found them */

/*
 * The bytes of a block, of a reply to DEPOT_READ_BLOCK.
 * Answers: DEPOT_WRITTEN, with DEPOT_BLOCK_SIZE octets; refusals, the least that fits:
 *   7  out_len is below DEPOT_BLOCK_SIZE
 *   8  sent_len is not DEPOT_BLOCK_SIZE
 * Afterwards: written, the octets stand at the start of out and those behind them are as before; refused, out is as before.
 */
uint64_t depot_block(const uint8_t *sent, size_t sent_len, uint8_t *out, size_t out_len);

/*
 * Hour, minute and milliseconds, of a reply to DEPOT_SEND_TIMER. out_len counts numbers, here and in the next two.
 * Answers: DEPOT_WRITTEN, with DEPOT_TIMER_FIELDS numbers; refusals, the least that fits:
 *   7  out_len is below DEPOT_TIMER_FIELDS
 *   8  sent_len is not 4
 * Afterwards: written, the numbers stand at the start of out and those behind them are as before; refused, out is as before.
 */
uint64_t depot_timer(const uint8_t *sent, size_t sent_len, uint64_t *out, size_t out_len);

/*
 * TAB-SIZE, TAB-START and TAB-LEN, of a reply to DEPOT_SEND_TABLE.
 * Answers: DEPOT_WRITTEN, with DEPOT_SIZES_FIELDS numbers; refusals, the least that fits:
 *   7  out_len is below DEPOT_SIZES_FIELDS
 *   8  sent_len is not 6
 * Afterwards: as depot_timer.
 */
uint64_t depot_sizes(const uint8_t *sent, size_t sent_len, uint64_t *out, size_t out_len);

/*
 * UID, hour, minute, milliseconds and antenna mask of record i, of a reply to DEPOT_READ_RECORDS. The oldest is record 0.
 * Such a reply carries no data, or a count from 1 to 64 in two octets, MSB first, and then exactly as many records.
 * Answers: DEPOT_WRITTEN, with DEPOT_RECORD_FIELDS numbers; refusals, the least that fits:
 *   6  i is beyond the last: at least (sent_len - 2) / DEPOT_RECORD_SIZE, or sent_len is below 2
 *   7  out_len is below DEPOT_RECORD_FIELDS
 *   8  data that no such reply carries
 * Afterwards: as depot_timer. Asked for 0, 1, 2 and so on, the first 6 is the end.
 */
uint64_t depot_record(const uint8_t *sent, size_t sent_len, size_t i, uint64_t *out, size_t out_len);

/* ---- scan lines */

/*
 * Block 7 shapes a line: header, UID, separator, timer, end. The one bit that SEP-CHAR (byte 1) or END-CHAR (byte 3) may have set
 * says what is written there:
 *   0x80 the user's: byte 2, bytes 4 to 6   0x40 space   0x20 comma   0x10 semicolon
 *   0x08 TAB, 0x09 as in ASCII              0x04 CR      0x02 LF      0x01 CR and LF       no bit: nothing
 * A program that splits at TAB opens such lines as columns, if UID and timer are hex digits (DB-USE, byte 0, is 2): raw octets
 * may be 0x09 themselves.
 */

/*
 * Writes the line of a record as block 7 shapes it.
 * Answers: DEPOT_WRITTEN, a line of DEPOT_LENGTH octets; refusals, the least that fits:
 *   6  block_len is not DEPOT_BLOCK_SIZE or record_len is not DEPOT_RECORD_SIZE; the block breaks the rules of block 7
 *   7  the line does not fit in out_len octets
 * Afterwards: written, the line stands at the start of out and the octets behind it are as before; refused, out is as before.
 */
uint64_t depot_line(const uint8_t *block, size_t block_len, const uint8_t *record, size_t record_len, uint8_t *out, size_t out_len);

/*
 * Writes a line for each record in the data of a reply to DEPOT_READ_RECORDS, one behind the other, all or none; where there
 * are no data, no line.
 * Answers: DEPOT_WRITTEN, lines of DEPOT_LENGTH octets together; refusals, the least that fits:
 *   6  block_len is not DEPOT_BLOCK_SIZE; the block breaks the rules of block 7; sent is what no such reply carries (depot_record)
 *   7  the lines do not fit in out_len octets
 * Afterwards: as depot_line.
 */
uint64_t depot_lines(const uint8_t *block, size_t block_len, const uint8_t *sent, size_t sent_len, uint8_t *out, size_t out_len);

#ifdef __cplusplus
}
#endif

#endif
