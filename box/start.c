// The start of the firmware on QEMU's microbit: the vectors, a painted stack, read and write by
// semihosting, and at the end how much of the stack was used. A box has a keyboard and a display of
// its own in place of the host.
#include <stdint.h>

// Places of box.ld.
extern uint32_t stack_low[], stack_top[], bss_start[], bss_end[];
extern uint32_t data_start[], data_end[], data_load[];

int main(void); // the program panel

static const uint32_t PAINT = 0xA5A5A5A5;

// ---- the host

enum { OPEN = 0x01, WRITE = 0x05, READ = 0x06, EXIT = 0x20 }; // operations
enum { FOR_READING = 0, FOR_WRITING = 4, FOR_APPENDING = 8 }; // standard input, output and error
enum { APPLICATION_EXIT = 0x20026 };                          // the reason of an exit
enum { ENDED = 0, FAULT = 3 };                                // our statuses

static uint32_t input, output, error;

static uint32_t host(uint32_t operation, const void *block) {
    register uint32_t r0 __asm__("r0") = operation;
    register const void *r1 __asm__("r1") = block;
    __asm__ volatile("bkpt 0xAB" : "+r"(r0) : "r"(r1) : "memory");
    return r0;
}

static uint32_t open_console(uint32_t mode) {
    uint32_t block[3] = {(uint32_t)":tt", mode, 3};
    return host(OPEN, block);
}

// Answers how many of the bytes were not read or written.
static uint32_t transfer(uint32_t operation, uint32_t file, const void *bytes, uint32_t count) {
    uint32_t block[3] = {file, (uint32_t)bytes, count};
    return host(operation, block);
}

__attribute__((noreturn)) static void leave(uint32_t status) {
    uint32_t block[2] = {APPLICATION_EXIT, status};
    for (;;) host(EXIT, block);
}

// ---- what the program calls as libc::read and libc::write

// The module has a usize and an isize of 64 bits, as the proofs have, and a pointer of 32 bits. No
// buffer is larger than RAM, so that the lower half of a size is the size.
int64_t read(int32_t from, uint8_t *bytes, uint64_t size) {
    uint32_t count = (uint32_t)size;
    return from == 0 ? (int64_t)(count - transfer(READ, input, bytes, count)) : -1;
}

int64_t write(int32_t to, const uint8_t *bytes, uint64_t size) {
    uint32_t count = (uint32_t)size;
    return to == 1 ? (int64_t)(count - transfer(WRITE, output, bytes, count)) : -1;
}

// What the program asks for where one of these fails, and then passes over: EIO.
int32_t rattle_errno(void) { return 5; }

// ---- what is said on standard error

static void say(const char *text) {
    uint32_t count = 0;
    while (text[count] != 0) count++;
    transfer(WRITE, error, text, count);
}

// In hexadecimal, which takes no division.
static void say_number(uint32_t number) {
    char digits[8];
    for (int i = 8; i-- > 0; number >>= 4) digits[i] = "0123456789abcdef"[number & 15];
    transfer(WRITE, error, digits, sizeof digits);
}

// The mark: the bytes from the lowest word of the stack that is no longer painted to its top.
static void say_mark(void) {
    const uint32_t *lowest = stack_low;
    while (lowest < stack_top && *lowest == PAINT) lowest++;
    say("stack ");
    say_number((uint32_t)stack_top - (uint32_t)lowest);
    say(" of ");
    say_number((uint32_t)stack_top - (uint32_t)stack_low);
    say("\n");
}

// ---- start and fault

// A function of its own, by which a trace is tested (measure.py). It must use no stack: it paints it.
__attribute__((noipa)) static void paint(volatile uint32_t *from, const uint32_t *to) {
    while (from < to) *from++ = PAINT;
}

__attribute__((noreturn)) void reset(void) {
    uint32_t *stack_pointer;
    __asm__ volatile("mov %0, sp" : "=r"(stack_pointer));
    paint(stack_low, stack_pointer);
    const uint32_t *load = data_load;
    for (volatile uint32_t *to = data_start; to < data_end; to++) *to = *load++;
    for (volatile uint32_t *to = bss_start; to < bss_end; to++) *to = 0;
    input = open_console(FOR_READING);
    output = open_console(FOR_WRITING);
    error = open_console(FOR_APPENDING);
    main();
    say_mark();
    leave(ENDED);
}

__attribute__((noreturn, used)) static void say_fault(void) {
    say("fault\n");
    leave(FAULT);
}

// Takes the stack anew: where the fault is that the stack left RAM, there is none.
__attribute__((naked)) static void fault(void) {
    __asm__ volatile("ldr r0, =stack_top\n mov sp, r0\n bl say_fault\n .ltorg");
}

__attribute__((section(".vectors"), used)) static const void *const vectors[16] = {
    stack_top, (void *)reset, (void *)fault, (void *)fault, // the stack, reset, NMI, HardFault
};
