/* The fire card for programs in C: the functions of the proved crate card_c, as card_c_c exports them (target/staticlib/libcard_c.a, by
   tools/staticlib.sh; Linux on x86-64 of level v2 and up).

   A record is that of docs/SPECIFICATION.md, part 2: big-endian, 21 to 53 bytes in version 1, 22 to 54 in version 2, which has a byte for
   the face that the fire is on after the version: 0 the first, 1 the last, 2 each alone. Version 1 means the first. Lengths in a record
   are in tenths of mm, the rate in hundredths of mm/min, the strength in tenths of N/mm2, the moment in N·m per metre of width, the
   failure time in thousandths of a minute. There is no board, one or two of gypsum (types A, F and H), or one of OSB (O) or particle
   board (P).

   The byte for the bond says what the panel is made of: 0 is CLT whose bond between lamellae holds in a fire, 1 CLT whose bond falls, 2 LVL,
   laminated veneer lumber. Of LVL all lamellae lie along and the record gives rate 65. An LVL panel that is thinner than 20.0 mm in all chars
   faster than that, at the least whole rate n with n*n*h >= 65*65*200 for its thickness h in tenths of mm; its record gives 65 all the same.

   No byte at all, `bytes_length` 0, is a record too, so that pressing start shows whether the unit is alive. It means panel G, 30 mm along, 40
   across, 30 along, strength 24.0 N/mm2, rate 0.65 mm/min, no boards, bond that holds, moment 3,000 N·m, in version 1: the functions answer
   what they answer to its 27 bytes. So whoever could not read a record must not call: a length of 0 that stands for a failed read gets
   the card of a panel that nobody asked for. Fewer bytes than 21, but one or more, are refused.

   Any bytes may be given, and any space lent; the functions always return. The caller must see to what C cannot say:
   - a pointer points to as many bytes as are named. Where that is none, nothing is read or written through it; but it is not null even then: the
     address of any object will do;
   - `out` shares no byte with `bytes`, and nothing else writes either before the call returns.
   The functions keep nothing, allocate nothing and call only memcpy. Two threads may call them at once on different spaces.

   Stack, from the call on, without what memcpy uses: a card takes at most 2,430 bytes, the least cut 2,238, a refusal
   120 (read off the machine code and tried on a painted stack, by bench/stack.py). Constants: 6,449 bytes, read only. */
#ifndef YURBANTSE_H
#define YURBANTSE_H

#include <stddef.h>
#include <stdint.h>

#ifdef __cplusplus
extern "C" {
#endif

/* The text that this header was written for: document 01 with the requests of document 02 from the first to this one. Hold the library to it
   once: yurbantse_version() == YURBANTSE_VERSION. */
#define YURBANTSE_VERSION 10

/* The last request that is in the library. */
uint32_t yurbantse_version(void);

/* No card is longer. */
#define YURBANTSE_CARD_MOST 249

/* Writes the card of the record in `bytes` into `out`: lines of ASCII, each ending in a line feed, with no 0 after the last.
   CARD has the record's version; CHAR has the minute, the char depth in micrometres and the effective depth in tenths of mm; R and EI have
   minutes and grades, RS the failure time under load in whole minutes and seconds. For face 2 these are the lesser of the two fires, and
   the depths those of the first face.

   Answers the number of bytes written; what `out` held after them stays. Or answers minus the number of the refusal, and `out` is as it
   was, every byte of it:

     -1 length       -5 strength, moment   -9 failure time                         -13 section: depth 0 fails
     -2 version      -6 board count        -10 lamella count                       -14 `out` too short
     -3 bond, gap    -7 board types        -11 lamella direction, thickness, sum   -16 face
     -4 rate         -8 board numbers      -12 no lamella along                    -17 LVL: a lamella across, or a rate other than 65

   The first of these that fits is answered, -16 being looked at after -2, -17 after -11, and -14 last, so only where the record is accepted.
   Space for exactly the card is enough. */
int32_t yurbantse_card(const uint8_t *bytes, size_t bytes_length, uint8_t *out, size_t out_length);

/* Writes the line `REFUSED n` with its line feed into `out` and answers its bytes, 10 to 12; or answers -14 where `out` is shorter than
   that, and `out` is as it was. n is the number of a refusal without its sign. */
int32_t yurbantse_refusal(uint8_t n, uint8_t *out, size_t out_length);

/* How much may be planed off one lamella alone, which keeps at least 10.0 mm, before the REI grade of the record's panel falls: the least
   cut that lowers it. Answers

     1,000 times the lamella's place in the record, from 1, and the tenths of mm taken off it: 2037 is 3.7 mm off the second lamella. With
       as much at several places it is the one nearest the fire, for face 2 nearest the first face. A panel that would meet 13 counts as
       lowered. A lesser cut of any lamella lowers nothing, but a greater one may leave the grade as it is: EI can rise again.
     0 where no cut of any lamella lowers the grade;
     minus the number of the refusal, as above but never -14.

   It tries every cut from the least on. Of random panels half took under 0.5 million instructions; the most that was counted, for nine thick
   lamellae with a fire on each face, is 61 million (docs/SPEED.md). */
int32_t yurbantse_planing(const uint8_t *bytes, size_t bytes_length);

#ifdef __cplusplus
}
#endif

#endif
