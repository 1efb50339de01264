/* Requests of a tester: early ends of the task, and tasks by a parameter. */
#include "kernel.h"

#define TIMEOUT 5000u

extern int request(void), is_allowed(int);

static void answer_by(TaskType task, int is_last)
{
  if (is_last)
    ChainTask(task);
  ActivateTask(task);
}

TASK(Session)
{
  TickType left;
  int service = request();
  if (GetAlarm(Timeout, &left) == E_OK && left < 10)
    CancelAlarm(Timeout);
  if (!is_allowed(service)) {
    TerminateTask();
    return;
  }
  if (SetAbsAlarm(Timeout, TIMEOUT, 0) != E_OK && service == 0x11)
    answer_by(Reset, 1);
  else if (service == 0x34)
    answer_by(Flash, 0);
  TerminateTask();
}

TASK(Flash) { ChainTask(Session); }
TASK(Reset) { TerminateTask(); }
