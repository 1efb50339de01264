/* A library's default that another file replaces, and a routine of category 1, which calls no service. */
#include "os.h"

extern volatile int watchdog_register;

__attribute__((weak)) void board_ready(void) { ShutdownOS(E_OS_NOFUNC); }
__attribute__((weak)) void on_tick(void) { }

void StartupHook(void) { watchdog_register = 1; }

ISR(Nmi) { watchdog_register = 0; }

ISR(Tick)
{
  on_tick();
  watchdog_register ^= 1;
}

TASK(Init)
{
  for (int k = 0; k < 3; k++)
    __asm__ volatile("nop");
  board_ready();
  TerminateTask();
}
