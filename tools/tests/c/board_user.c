#include "os.h"

void board_ready(void) { ActivateTask(Watchdog); }

void on_tick(void)
{
  static int ticks;
  if (++ticks % 10 == 0)
    ActivateTask(Watchdog);
}

TASK(Watchdog)
{
  TaskStateType state;
  GetTaskState(Init, &state);
  if (state == SUSPENDED || state == WAITING)
    TerminateTask();
  ChainTask(Watchdog);
}
