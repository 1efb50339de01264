/* Nested sections, expressions with calls in them, and a loop whose condition calls. */
#include "os.h"

extern int pressure(void), is_open(void);

static int opened(void)
{
  int found;
  GetResource(Valve);
  found = is_open();
  ReleaseResource(Valve);
  return found;
}

TASK(Fill)
{
  int turns = 0;
  while (!opened() && turns < 8)
    turns++;
  GetResource(Line);
  (void)(pressure() > 3 ? opened() : ActivateTask(Drain));
  ReleaseResource(Line);
  TerminateTask();
}

TASK(Drain)
{
  if (opened() || Schedule() != E_OK)
    ActivateTask(Fill);
  TerminateTask();
}
