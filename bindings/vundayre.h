/* The timing check of Vundayre, for C and C++. Link with libvundayre.a (tools/build vundayre) of the same version: the layout below is no
   other version's. */
#ifndef VUNDAYRE_H
#define VUNDAYRE_H

#include <stddef.h>
#include <stdint.h>

#ifdef __cplusplus
extern "C" {
#endif

/* An answer buffer of this many bytes suffices for every table; a shorter one is refused with number 1. */
#define VUNDAYRE_ANSWER_BYTES 5120

/* A thread with a stack of this many bytes can analyse every table, join and preview any two and hide any port (bench/run tries it out; it is not
   proved; none recurses). With rattle-kit-13f the frames of the analysis take 72,800 of them, those of the join 11,240, of the preview
   72,832 and of hiding 72,960. */
#define VUNDAYRE_STACK_BYTES 98304

/* A buffer of this many bytes suffices for every joined table and for every table with a hidden port; a shorter one may be refused with number
   16. */
#define VUNDAYRE_TABLE_BYTES 6656

struct vundayre_outcome {
    /* Document 01's number. Of the analysis 0 is consistent; 1 to 15, and 17, periods but no least, are refusals. Of hiding 0 is hidden; 2 to 15
       and 17 are what the analysis says of the table, and 18, the port cannot be hidden, 19, a resulting value leaves its range, 7, there would
       be more than 256 connections and buffers, and 16, the out buffer is shorter than the resulting table, are tried after these. */
    uint64_t number;
    /* Of 2 to 11 the byte of the table at which the faulty record begins, counted from 0; of every other number, and of hiding's own 7, 0. */
    size_t place;
    /* How many bytes of the answer buffer, of hiding the out buffer, were written, from its first byte on. */
    size_t written;
};

/*
 * Analyses the table of table_bytes bytes, any bytes at all.
 *
 * Numbers 1 to 12, 14 and 17 write nothing. 0 writes a record for each port, then one for each buffer; 13 writes a loop; 15 a floor and a
 * block; the floor's port is 65535 where the floor is zero, which is so only where no port of the component has a rate (0/0). Bytes of the
 * answer buffer past the written ones keep what they held. Neither pointer may be null, also where the length is 0, and the two buffers may
 * not overlap. It keeps nothing between calls and may be called from several threads.
 */
struct vundayre_outcome vundayre_analyse(const uint8_t *table, size_t table_bytes, uint8_t *answer, size_t answer_bytes);

struct vundayre_joined {
    /* Of a join 0 is joined; 2 to 11, document 01's numbers, and 16, the out buffer is shorter than the joined table, are refusals. Of a
       preview the join's 2 to 11, else what the analysis says of the joined table: 0, 1, 12 to 15 or 17. */
    uint64_t number;
    /* Of 2 to 11 the byte at which the faulty record begins, counted from 0 within its own input; of every other number 0. */
    size_t place;
    /* Of 2 to 11 the input of the faulty record: 1 the first, 2 the second, 3 the added records; of every other number 0. */
    uint64_t input;
    /* How many bytes of the out buffer, of a preview the answer buffer, were written, from its first byte on. */
    size_t written;
};

/*
 * Joins the first table, the second and the added connections and buffers, any bytes at all, to one table. The second table's ports are
 * numbered behind the first's; the added records go by the numbers of the joined table.
 *
 * A refusal writes nothing; 0 writes the joined table. Bytes of the out buffer past the written ones keep what they held. No pointer may be
 * null, also where its length is 0. The inputs are only read and may be one and the same memory; the out buffer may overlap none of them. It
 * keeps nothing between calls and may be called from several threads.
 */
struct vundayre_joined vundayre_join(const uint8_t *first, size_t first_bytes, const uint8_t *second, size_t second_bytes, const uint8_t *added,
                                     size_t added_bytes, uint8_t *out, size_t out_bytes);

/*
 * Previews a join: analyses the table that vundayre_join makes of these inputs, and makes no such table. It equals the join into a buffer of
 * VUNDAYRE_TABLE_BYTES and then the analysis of what was written there, refusals and their order included: 2 to 11, of an input, come before
 * 1, and 16 never comes. 13 and 15 may show another loop, floor or block. What is shown has the numbers of the joined table.
 *
 * 2 to 11 write nothing, every other number what it writes in the analysis. Bytes of the answer buffer past the written ones keep what they
 * held. No pointer may be null, also where its length is 0. The inputs are only read and may be one and the same memory; the answer buffer may
 * overlap none of them. It keeps nothing between calls and may be called from several threads.
 */
struct vundayre_joined vundayre_preview(const uint8_t *first, size_t first_bytes, const uint8_t *second, size_t second_bytes,
                                        const uint8_t *added, size_t added_bytes, uint8_t *answer, size_t answer_bytes);

/*
 * Hides a port of the table of table_bytes bytes, any bytes at all: writes the table without it, where each connection into the port and each out
 * of it make one. Later ports are numbered one less. The other ports keep their periods and the starts that are possible for them, of any sign;
 * the starts and sizes that the analysis returns may be others.
 *
 * A port that is no port of the table, touches a buffer, joins itself, or lacks a sender or a receiver is refused with number 18. A refusal
 * writes nothing; 0 writes the table. Bytes of the out buffer past the written ones keep what they held. Neither pointer may be null, also where
 * the length is 0, and the two buffers may not overlap. It keeps nothing between calls and may be called from several threads.
 */
struct vundayre_outcome vundayre_hide(const uint8_t *table, size_t table_bytes, uint64_t port, uint8_t *out, size_t out_bytes);

#ifdef __cplusplus
}
#endif

#endif
