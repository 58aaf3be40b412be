// Copying and filling memory, by the names of ARM's run-time ABI, which clang calls, so that no C
// library is needed. gcc would make of these loops calls of themselves, but for the flag
// -fno-tree-loop-distribute-patterns.
#include <stdbool.h>
#include <stddef.h>
#include <stdint.h>

typedef uint32_t __attribute__((may_alias)) word;
typedef struct __attribute__((may_alias)) { uint32_t words[3]; } block; // gcc moves three at once

static bool is_aligned(const void *place) { return (uintptr_t)place % sizeof(word) == 0; }

void __aeabi_memcpy(void *to, const void *from, size_t count) {
    uint8_t *put = to;
    const uint8_t *take = from;
    if (is_aligned(to) && is_aligned(from)) {
        for (; count >= sizeof(block); count -= sizeof(block)) {
            *(block *)put = *(const block *)take;
            put += sizeof(block), take += sizeof(block);
        }
        for (; count >= sizeof(word); count -= sizeof(word)) {
            *(word *)put = *(const word *)take;
            put += sizeof(word), take += sizeof(word);
        }
    }
    for (; count > 0; count--) *put++ = *take++;
}

// From the end, where the bytes overlap with places above them.
static void copy_down(uint8_t *to, const uint8_t *from, size_t count) {
    bool by_words = is_aligned(to) && is_aligned(from);
    for (; count > 0 && !(by_words && count % sizeof(word) == 0); count--)
        to[count - 1] = from[count - 1];
    for (; count > 0; count -= sizeof(word))
        *(word *)(to + count - sizeof(word)) = *(const word *)(from + count - sizeof(word));
}

void __aeabi_memmove(void *to, const void *from, size_t count) {
    if ((uintptr_t)to - (uintptr_t)from < count) copy_down(to, from, count);
    else __aeabi_memcpy(to, from, count);
}

// The byte stands last here, and not before the count as in C's memset.
void __aeabi_memset(void *to, size_t count, int byte) {
    uint8_t *put = to;
    word four = (uint8_t)byte * 0x01010101u;
    if (is_aligned(to))
        for (; count >= sizeof(word); count -= sizeof(word), put += sizeof(word)) *(word *)put = four;
    for (; count > 0; count--) *put++ = (uint8_t)byte;
}

void __aeabi_memclr(void *to, size_t count) { __aeabi_memset(to, count, 0); }

// The same for places that are known to be aligned to 4 or 8 bytes.
#define SAME_AS(function) __attribute__((alias(#function)))
void __aeabi_memcpy4(void *, const void *, size_t) SAME_AS(__aeabi_memcpy);
void __aeabi_memcpy8(void *, const void *, size_t) SAME_AS(__aeabi_memcpy);
void __aeabi_memmove4(void *, const void *, size_t) SAME_AS(__aeabi_memmove);
void __aeabi_memmove8(void *, const void *, size_t) SAME_AS(__aeabi_memmove);
void __aeabi_memset4(void *, size_t, int) SAME_AS(__aeabi_memset);
void __aeabi_memset8(void *, size_t, int) SAME_AS(__aeabi_memset);
void __aeabi_memclr4(void *, size_t) SAME_AS(__aeabi_memclr);
void __aeabi_memclr8(void *, size_t) SAME_AS(__aeabi_memclr);
