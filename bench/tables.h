/* Reclaim by what the address table holds, and what boxes of several sizes take. */
#ifndef TABLES_H
#define TABLES_H

/* reclaim against one plain scan of the table; large: boxes of 10^7 and 10^8 addresses too (5 GB of memory) */
void reclaim_by_table(int large);
/* the table of sizes of README.md (8 GB of memory) */
void sizes(void);

#endif
