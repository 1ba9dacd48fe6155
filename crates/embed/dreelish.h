/* The bench modules for C: one message to one module, or to a class. Link with libembed.a, and for a class with libembed_class.a. */
#ifndef DREELISH_H
#define DREELISH_H

#include <stddef.h>
#include <stdint.h>

#define DREELISH_ROOM 5897  /* room for the longest reply */
#define DREELISH_SEATS 16   /* the most modules of a class */
#define DREELISH_UNFIT 255  /* what is no module, or a report shorter than 2 */

#define DREELISH_LENGTH 64  /* the bytes of a module, whatever its kind */

#define DREELISH_DIMMER 0x01 /* kinds */
#define DREELISH_OUTLET 0x02

/* the places of a module: who it is, */
#define DREELISH_KIND 0
#define DREELISH_HIGH 1 /* of the address */
#define DREELISH_MIDDLE 2
#define DREELISH_LOW 3
#define DREELISH_CATEGORY 4
#define DREELISH_SUBCATEGORY 5
#define DREELISH_FIRMWARE 6
#define DREELISH_REVISION 7

/* what a message may alter, */
#define DREELISH_FLAGS 8
#define DREELISH_LED 11
#define DREELISH_HOUSE 12
#define DREELISH_UNIT 13
#define DREELISH_DELTA 14

/* then of a dimmer */
#define DREELISH_LEVEL 16
#define DREELISH_RAMP 17
#define DREELISH_ON_LEVEL 18

/* and of an outlet, each 00 off or 01 on; with any other byte it is no module */
#define DREELISH_TOP 16
#define DREELISH_BOTTOM 17

/*
 * module: by the places above. Who it is is never written, and a byte at none of its kind's places is left as it stands.
 * links: link memory, which a linked sender may write. room: the reply goes to its start.
 * report: [0] the reply's length, [1] the records read.
 *
 * The answer is the result number, 0 to 8, or DREELISH_UNFIT, with which nothing is altered. The five that are lent must not
 * overlap; any of them may be empty.
 */
uint64_t dreelish_step(uint8_t *module, size_t module_length, uint8_t *links, size_t links_length, const uint8_t *message,
    size_t message_length, uint8_t *room, size_t room_length, uint64_t *report, size_t report_length);

/*
 * The same to a class. modules: `count` modules, seat k at DREELISH_LENGTH * k, and nothing else; only those that are served are written.
 * links: one link memory, whose equal parts are the modules' own, in their order.
 *
 * The answer is the result number, 0 to 11, or DREELISH_UNFIT, with which nothing is altered; a count that does not fit the bytes is so. With
 * more than DREELISH_SEATS modules it is 11, and they are left as they stand.
 */
uint64_t dreelish_class_step(uint8_t *modules, size_t modules_length, size_t count, uint8_t *links, size_t links_length, const uint8_t *message,
    size_t message_length, uint8_t *room, size_t room_length, uint64_t *report, size_t report_length);

#endif
