/* A switch whose groups fall into the next one. */
#include "os.h"

extern int gear(void);

TASK(Shift)
{
  switch (gear()) {
  case 3:
    ActivateTask(Clutch);
    /* fall through */
  case 2:
    Schedule();
    __attribute__((fallthrough));
  case 1:
  case 0:
    ActivateTask(Display);
    break;
  default:
    ShutdownOS(E_OS_LIMIT);
  }
  TerminateTask();
}

TASK(Clutch) { TerminateTask(); }
TASK(Display) { TerminateTask(); }
