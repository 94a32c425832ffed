/*
 * A day at one desk: a login, a write, a read, sightings, the records read back, told and printed as scan lines, and a new password.
 * ./lib at the root builds and runs it; by hand:
 *     cc -Wall -Wextra -Iinclude examples/day.c target/staticlib/libdepot_c.a target/staticlib/libhost_c.a -o day
 */
#include <inttypes.h>
#include <stdio.h>
#include <stdlib.h>
#include <string.h>

#include "depot.h"

#define DESK 2

static uint8_t store[DEPOT_STORE_SIZE];
static uint8_t reply[DEPOT_REPLY_SIZE];

/* What a reply said: its status, and its data where they stand in the reply. */
struct told {
    uint8_t status;
    const uint8_t *data;
    size_t len;
};

static void stop_if_refused(const char *what, uint64_t code)
{
    if (DEPOT_REFUSED(code)) {
        fprintf(stderr, "%s: refused %d\n", what, (int)code);
        exit(1);
    }
}

/* Asks the desk: the request is made, handed to the box, and the reply is read. bytes are a block for a write, and else not looked at. */
static struct told ask(const char *what, uint64_t control, uint64_t a, const uint8_t *bytes, size_t bytes_len)
{
    uint8_t frame[DEPOT_REPLY_SIZE];
    uint64_t made = depot_make(DEPOT_ADVANCED, DESK, control, a, 0, 0, bytes, bytes_len, frame, sizeof frame);
    stop_if_refused(what, made);
    uint64_t answered = depot_frame(store, sizeof store, frame, DEPOT_LENGTH(made), reply, sizeof reply);
    stop_if_refused(what, answered);
    uint64_t read = depot_read(DEPOT_ADVANCED, DESK, control, a, 0, 0, bytes, bytes_len, reply, DEPOT_LENGTH(answered));
    stop_if_refused(what, read);
    struct told told = { DEPOT_STATUS(read), reply + DEPOT_START(read), DEPOT_DATA_LENGTH(read) };
    printf("%s: status %02X\n", what, told.status);
    return told;
}

static void sight(uint64_t uid)
{
    uint64_t code = depot_sighting(store, sizeof store, DESK, uid, 1);
    stop_if_refused("sighting", code);
    if (DEPOT_IGNORED(code))
        printf("sighting: ignored, %d ticks left\n", (int)DEPOT_TICKS_LEFT(code));
    else
        puts(code == DEPOT_RECORDED ? "sighting: recorded" : "sighting: lost");
    stop_if_refused("tick", depot_tick(store, sizeof store));
}

static void print_timer(struct told told)
{
    uint64_t timer[DEPOT_TIMER_FIELDS];
    stop_if_refused("timer", depot_timer(told.data, told.len, timer, DEPOT_TIMER_FIELDS));
    printf("%d h, %d min, %d ms\n", (int)timer[DEPOT_TIMER_HOUR], (int)timer[DEPOT_TIMER_MINUTE], (int)timer[DEPOT_TIMER_MILLISECONDS]);
}

/* The oldest record is number 0. */
static void print_oldest(struct told told)
{
    uint64_t record[DEPOT_RECORD_FIELDS];
    stop_if_refused("record", depot_record(told.data, told.len, 0, record, DEPOT_RECORD_FIELDS));
    printf("oldest: tag %016" PRIX64 ", antennas %02X\n", record[DEPOT_RECORD_UID], (unsigned)record[DEPOT_RECORD_MASK]);
}

int main(void)
{
    /* Block 7 shapes a line: hex digits, a semicolon between UID and timer, LF, and four octets before it all. */
    static const uint8_t shape[DEPOT_BLOCK_SIZE] = { 2, 0x10, 0, 0x02, 0, 0, 0, 0, 'T', 'A', 'G', ' ', 0, 0x40 };
    /* Block 0 begins with the password. */
    static const uint8_t password[DEPOT_BLOCK_SIZE] = { 0x12, 0x34, 0x56, 0x78 };
    static const uint8_t none[1];
    uint8_t block[DEPOT_BLOCK_SIZE];
    uint8_t text[1024];

    stop_if_refused("fresh", depot_fresh(store, sizeof store));
    ask("login", DEPOT_LOGIN, 0, none, 0);
    ask("write", DEPOT_WRITE_BLOCK, 7, shape, sizeof shape);
    struct told told = ask("read", DEPOT_READ_BLOCK, 7, none, 0);
    stop_if_refused("block", depot_block(told.data, told.len, block, sizeof block));
    if (memcmp(block, shape, sizeof block) != 0) {
        fprintf(stderr, "read: not the block that was written\n");
        return 1;
    }

    sight(UINT64_C(0xE007000001645E37));
    sight(UINT64_C(0xE007000001645E38));
    sight(UINT64_C(0xE007000001645E37));

    print_timer(ask("timer", DEPOT_SEND_TIMER, 0, none, 0));
    told = ask("records", DEPOT_READ_RECORDS, 64, none, 0);
    print_oldest(told);
    uint64_t wrote = depot_lines(block, sizeof block, told.data, told.len, text, sizeof text);
    stop_if_refused("lines", wrote);
    fwrite(text, 1, DEPOT_LENGTH(wrote), stdout);
    ask("remove", DEPOT_REMOVE_RECORDS, 0, none, 0);

    /* A new password goes into EEPROM; into RAM it is turned down. RAM has the old one until a reset. */
    ask("password into RAM", DEPOT_WRITE_BLOCK, 0, password, sizeof password);
    ask("password into EEPROM", DEPOT_WRITE_BLOCK, DEPOT_EEPROM, password, sizeof password);
    ask("reset", DEPOT_RESET, 0, none, 0);
    ask("login", DEPOT_LOGIN, 0, none, 0);
    ask("login", DEPOT_LOGIN, 0x12345678, none, 0);

    /* A refusal is a number, and nothing was written. */
    uint64_t refused = depot_make(DEPOT_ADVANCED, DESK, DEPOT_READ_RECORDS, 0, 0, 0, none, 0, text, sizeof text);
    printf("none asked: refused %d\n", (int)refused);

    /* A store that was kept in a file would be tested so. */
    puts(depot_test(store, sizeof store) == DEPOT_DONE ? "store: sound" : "store: not sound");
    return 0;
}
