/* A stack of its own for a call, painted before it, so that what the call has written to can be looked at. _XOPEN_SOURCE has to be 700
 * before anything is included. */
#include <stdint.h>
#include <string.h>
#include <ucontext.h>

#define PAINT 0xa5

static uint8_t stack[1 << 18];
static ucontext_t caller, called;

static void on_painted_stack(void (*work)(void))
{
    memset(stack, PAINT, sizeof stack);
    getcontext(&called);
    called.uc_stack.ss_sp = stack;
    called.uc_stack.ss_size = sizeof stack;
    called.uc_link = &caller;
    makecontext(&called, work, 0);
    swapcontext(&caller, &called);
}
