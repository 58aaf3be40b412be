// The plain C of measure/plain_tally.c as firmware, beside which panel is measured. As panel does, it
// reads a line byte by byte, answers it, and only then reads the next.
#include <stddef.h>
#include <stdint.h>

// Of start.c and memory.c.
int64_t read(int32_t from, uint8_t *bytes, uint64_t size);
int64_t write(int32_t to, const uint8_t *bytes, uint64_t size);
void __aeabi_memcpy(void *to, const void *from, size_t count);
void __aeabi_memset(void *to, size_t count, int byte);

// ---- what the C needs of <string.h>; the first two are also called by compilers, by their names

void *memcpy(void *to, const void *from, size_t count) {
    __aeabi_memcpy(to, from, count);
    return to;
}

void *memset(void *to, int byte, size_t count) {
    __aeabi_memset(to, count, byte);
    return to;
}

static size_t strlen(const char *text) {
    size_t count = 0;
    while (text[count] != 0) count++;
    return count;
}

static int memcmp(const void *a, const void *b, size_t count) {
    const uint8_t *x = a, *y = b;
    for (; count > 0; count--, x++, y++)
        if (*x != *y) return *x - *y;
    return 0;
}

#define FIRMWARE
#include "../measure/plain_tally.c"

// ---- lines

enum { ROOM = LINE_LIMIT + 1 }; // one byte more than a line may have, so that a longer one is seen

// In one function: both compilers make slower code where another function reads the line.
int main(void) {
    struct ledger ledger = {0};
    char line[ROOM];
    for (;;) {
        size_t count = 0;
        for (;;) {
            uint8_t byte;
            if (read(0, &byte, 1) < 1) {
                if (count == 0) return 0;
                break;
            }
            if (byte == '\n') break;
            if (count < ROOM) line[count++] = (char)byte;
        }
        written = 0;
        answer(&ledger, (struct text){line, line + count});
        write(1, (const uint8_t *)output, written);
    }
}
