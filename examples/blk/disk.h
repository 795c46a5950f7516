/* A disk in memory. */
#ifndef BLK_DISK_H
#define BLK_DISK_H

#include <stdbool.h>
#include <stdint.h>

enum { SECTOR = 512, SECTORS = 8192 }; /* 4 MiB */

struct disk {
    uint8_t bytes[SECTORS][SECTOR];
};

/* Whether so many sectors from this one on are on the disk. */
bool disk_has(uint64_t sector, uint64_t count);
/* Moves sectors that the disk has. */
void disk_read(const struct disk *disk, uint64_t sector, uint64_t count, uint8_t *to);
void disk_write(struct disk *disk, uint64_t sector, uint64_t count, const uint8_t *from);

#endif
