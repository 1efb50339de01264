#include "os.h"
#include "board.h"

int queued;
static Reading queue[QUEUE];

int queue_put(Reading reading)
{
  if (queued == QUEUE)
    return 0;
  queue[queued++] = reading;
  return 1;
}

void wake(TaskType task)
{
  if (queued > QUEUE / 2)
    ActivateTask(task);
}

TASK(Log)
{
  SuspendOSInterrupts();
  queued = 0;
  ResumeOSInterrupts();
  TerminateTask();
}
