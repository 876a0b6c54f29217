/* What the example prints about orders of inserts. */
#ifndef ORDERS_H
#define ORDERS_H

/* Prints the only order of a table, and whether inserts in this order make it. */
void order_of_inserts(void);

/* A valid table that no inserts make. */
void unmade_table(void);

#endif
