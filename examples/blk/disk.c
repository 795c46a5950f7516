#include "disk.h"

#include <string.h>

bool disk_has(uint64_t sector, uint64_t count)
{
    return sector <= SECTORS && count <= SECTORS - sector;
}

void disk_read(const struct disk *disk, uint64_t sector, uint64_t count, uint8_t *to)
{
    memcpy(to, disk->bytes[sector], count * SECTOR);
}

void disk_write(struct disk *disk, uint64_t sector, uint64_t count, const uint8_t *from)
{
    memcpy(disk->bytes[sector], from, count * SECTOR);
}
