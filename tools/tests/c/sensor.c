/* A converter's interrupt wakes the task that files the readings. */
#include "os.h"
#include "board.h"

static Reading last;

ISR(Adc)
{
  last.value = adc_register;
  SetEvent(Sensor, Sample);
}

TASK(Sensor)
{
  EventMaskType seen;
  for (;;) {
    WaitEvent(Sample | Stop);
    GetEvent(Sensor, &seen);
    if (seen & Stop)
      break;
    ClearEvent(Sample);
    if (queue_put(last))
      wake(Log);
  }
  TerminateTask();
}
