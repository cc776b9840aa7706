/* What the comparison asks of a peer: a table from levels to records that keeps its bytes. One peer is linked into a program. */
#ifndef PEER_H
#define PEER_H

#include <stdint.h>

typedef struct {
    uint32_t key, moves, goal, word;
} record;

/* Ends the program, with what failed. */
void fail(const char *what);

/* A new table at `path`, for so many records and so many updates among them. */
void peer_open(const char *path, const char *mode, uint32_t records, uint32_t updates);
/* A level that is not there; one that is makes it fail. On the medium when it returns, if the peer can. */
void peer_insert(const record *r);
/* A level, there or not. */
void peer_update(const record *r);
/* 1 and the record, or 0. */
int peer_lookup(uint32_t key, record *r);
void peer_close(void);

/* Bytes that went to the medium otherwise than by write(). */
uint64_t peer_written(void);
/* Bytes of memory, if the peer knows; else 0, and it is measured. */
uint64_t peer_memory(void);

#endif
