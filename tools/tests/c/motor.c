/* Each way out of the section gives the resource back. */
#include "Os.h"

extern int current(void), temperature(void), speed(void);
extern void drive(int duty);

void ErrorHook(StatusType error) { (void)error; }

static int limited(int duty)
{
  GetResource(Drive);
  if (current() > 30) {
    drive(0);
    ReleaseResource(Drive);
    return -1;
  }
  drive(duty);
  ReleaseResource(Drive);
  return duty;
}

TASK(Control)
{
  if (limited(speed()) < 0)
    ChainTask(Monitor);
  else
    TerminateTask();
}

TASK(Monitor)
{
  do {
    if (temperature() > 120) {
      (void)limited(0);
      continue;
    }
    Schedule();
  } while (speed() != 0);
  TerminateTask();
}
