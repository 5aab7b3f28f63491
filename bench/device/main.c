/* Makes a step of each row and writes the outputs' words in hexadecimal through the emulator, line by line. For bench/device.py, which writes rows.h:
 * how many rows, inputs, states and outputs there are, the rows, the start words, the type of a word and the step. Nothing of a library is called here,
 * so that what is called of one belongs to the step. */
#include "rows.h"

extern uint32_t stack_top[];

/* asks the emulator for something: `bkpt 0xab` with a number and an argument, as the semihosting of Arm has it */
static void ask(uint32_t what, const void *with) {
    register uint32_t first __asm__("r0") = what;
    register const void *second __asm__("r1") = with;
    __asm__ volatile("bkpt 0xab" : "+r"(first) : "r"(second) : "memory");
}

static void write_half(uint32_t half, char *text) {
    for (int k = 7; k >= 0; k--) {
        uint32_t digit = half & 15;
        text[k] = (char)(digit < 10 ? '0' + digit : 'a' + digit - 10);
        half >>= 4;
    }
}

/* the lines that aren't written yet: each call of the emulator costs it much time */
static char page[17 * 400 + 1];
static int used;

static void write_page(void) {
    page[used] = 0;
    used = 0;
    ask(4, page);
}

static void write_word(int64_t word) {
    write_half((uint32_t)((uint64_t)word >> 32), page + used);
    write_half((uint32_t)word, page + used + 8);
    page[used + 16] = '\n';
    used += 17;
    if (used == 17 * 400) write_page();
}

static void begin(void) {
    WORD state[] = START, output[OUTPUTS];
    (void)state;
    used = 0;
    for (int row = 0; row < ROWS; row++) {
        STEP(state, rows[row], output);
        for (int j = 0; j < OUTPUTS; j++) write_word(output[j]);
    }
    write_page();
    ask(0x18, (void *)0x20026);
}

/* any fault ends the emulator with 1 */
static void fail(void) {
    for (;;) ask(0x18, (void *)0x20023);
}

__attribute__((section(".vectors"), used)) static void *const vectors[] = {
    stack_top, begin, fail, fail, fail, fail, fail, 0, 0, 0, 0, fail, fail, 0, fail, fail,
};
