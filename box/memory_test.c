// A firmware that tries memory.c beside plain loops, at each alignment and overlap of up to 40 bytes,
// and answers ok or wrong. Without headers, which the toolchain's clang has not. Volatile, so that no
// loop here becomes a call of what is tried.
typedef unsigned char byte;
enum { ROOM = 128, PLACE = 48, LONGEST = 40, REACH = 44 };

long long write(int, const byte *, unsigned long long);
void __aeabi_memcpy(void *, const void *, unsigned), __aeabi_memmove(void *, const void *, unsigned);
void __aeabi_memset(void *, unsigned, int), __aeabi_memclr(void *, unsigned);

static volatile byte tried[ROOM], expected[ROOM], copy[LONGEST];
static byte *const room = (byte *)tried;

static void prepare(void) {
    for (int i = 0; i < ROOM; i++) tried[i] = expected[i] = (byte)(7 * i + 3);
}

static int is_alike(void) {
    for (int i = 0; i < ROOM; i++)
        if (tried[i] != expected[i]) return 0;
    return 1;
}

static int moves(int to, int from, int count) {
    prepare();
    for (int i = 0; i < count; i++) copy[i] = expected[from + i];
    for (int i = 0; i < count; i++) expected[to + i] = copy[i];
    int overlap = to < from + count && from < to + count;
    if (overlap) __aeabi_memmove(room + to, room + from, (unsigned)count);
    else __aeabi_memcpy(room + to, room + from, (unsigned)count);
    if (!is_alike()) return 0;
    __aeabi_memmove(room + to, room + to, (unsigned)count);
    return is_alike();
}

static int fills(int to, int count, int value) {
    prepare();
    for (int i = 0; i < count; i++) expected[to + i] = (byte)value;
    if (value == 0) __aeabi_memclr(room + to, (unsigned)count);
    else __aeabi_memset(room + to, (unsigned)count, value);
    return is_alike();
}

int main(void) {
    int right = 1;
    for (int count = 0; count <= LONGEST; count++)
        for (int from = PLACE; from < PLACE + 4; from++) {
            for (int to = PLACE - REACH; to < PLACE + REACH - 8; to++) right &= moves(to, from, count);
            right &= fills(from, count, 0) & fills(from, count, 0x5A) & fills(from, count, 0x1A5);
        }
    static const byte words[] = "ok\nwrong\n";
    write(1, right ? words : words + 3, right ? 3 : 6);
    return 0;
}
