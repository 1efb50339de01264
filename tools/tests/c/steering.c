/* One task that waits for three events and sorts them out. */
#include "os.h"

extern void assist(int), centre(void);
extern int measured;

static inline void locked(int value)
{
  SuspendAllInterrupts();
  measured = value;
  ResumeAllInterrupts();
}

static void served(EventMaskType event, int torque)
{
  if (event & Torque) {
    ClearEvent(Torque);
    locked(torque);
    assist(torque);
  }
  if (event & Angle) {
    ClearEvent(Angle);
    centre();
  }
}

TASK(Assist)
{
  EventMaskType event = 0;
  while (1) {
    WaitEvent(Torque | Angle | Fault);
    GetEvent(Assist, &event);
    if (event & Fault) {
      ClearEvent(Fault);
      if (ActivateTask(Safety) != E_OK)
        ShutdownOS(E_OS_STATE);
      continue;
    }
    served(event, measured);
  }
}

TASK(Safety) { TerminateTask(); }
