/* No peer: what the program has without one, to be taken off the size of its code. */
#include "peer.h"

void peer_open(const char *path, const char *mode, uint32_t records, uint32_t updates)
{
    (void)path;
    (void)mode;
    (void)records;
    (void)updates;
}
void peer_insert(const record *r) { (void)r; }
void peer_update(const record *r) { (void)r; }
int peer_lookup(uint32_t key, record *r)
{
    (void)key;
    (void)r;
    return 0;
}
void peer_close(void) {}
uint64_t peer_written(void) { return 0; }
uint64_t peer_memory(void) { return 0; }
