/*
 * The net table of a class: calls of the proved library libhello.a that only the tutor makes.
 *
 * The table, a hello_class_table of hello.h, has the class's NHOSTS and up to HELLO_ROWS rows. Rows keep
 * their order, and their numbers are 1, 2, 3 and so on; a row that is added goes at the end, and those
 * after one that is removed move up. Nets may be any, the same ones twice and several of net zero
 * too. After a call that was done, the places after the rows are zero.
 *
 * The calls know no host: a change takes effect at the next call of a host that looks an address
 * up, in the middle of a walk too. If NHOSTS is not that of a host's settings, each of
 * its calls returns 1.
 *
 *   no.  meaning                                                             changes
 *   0    done                                                                the table
 *   1    an id from NHOSTS on, or an NHOSTS not 1 to 255                     nothing
 *   12   a table with over 32 rows, NHOSTS not 1 to 255 or a row's id not    nothing
 *        below it, also after a row of net zero; not when it is initialized
 *   21   there are 32 rows                                                   nothing
 *   22   no row of that number; none is number 0                             nothing
 *
 * Tested in the order 12, 22, 21, 1. What a caller owes is in hello.h: valid pointers that are
 * not null, nothing passed twice.
 */
#ifndef HELLO_NETS_H
#define HELLO_NETS_H

#include "hello.h"

#ifdef __cplusplus
extern "C" {
#endif

#define HELLO_TABLE_FULL 21
#define HELLO_NO_ROW 22

/* What adding a row returns. */
typedef struct hello_net_added {
    uint8_t answer;
    size_t row; /* the number of the row, from 1; 0 when refused */
} hello_net_added;

/* Initializes the table, without rows: 1. Any table may be passed. */
uint8_t hello_net_afresh(hello_class_table *table, size_t nhosts);

/* A row more, at the end: 12, 21, 1. */
hello_net_added hello_net_add(hello_class_table *table, hello_net net, size_t id);

/* A row less: 12, 22. */
uint8_t hello_net_remove(hello_class_table *table, size_t row);

/* A row leads to another host; its net stays: 12, 22, 1. */
uint8_t hello_net_change(hello_class_table *table, size_t row, size_t id);

#ifdef __cplusplus
}
#endif

#endif
