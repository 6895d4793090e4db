/* How tests/target_calls.c starts on a board without an operating system. Its standard input and output, and its end,
   are those of the emulator (semihosting), by newlib. Where the linker put things stands in examples/board.ld. */
#include <stdint.h>
#include <stdlib.h>
#include <string.h>

extern uint32_t data_from[], data_begin[], data_end[], bss_begin[], bss_end[], stack_end[];
void initialise_monitor_handles(void);
int main(void);

static void start(void) {
    memcpy(data_begin, data_from, (size_t)((char *)data_end - (char *)data_begin));
    memset(bss_begin, 0, (size_t)((char *)bss_end - (char *)bss_begin));
    initialise_monitor_handles();
    exit(main());
}

__attribute__((section(".vectors"), used)) static const struct {
    const void *stack;
    void (*start)(void);
} vectors = {stack_end, start};
