/* A button's states; each return gives up the poll or keeps it. */
#include "osek.h"

#define MS(n) ((n) * 2)

enum { OPEN, BOUNCING, CLOSED } state;
static int count;
extern int level(void);

ISR(Edge)
{
  if (state == OPEN) {
    state = BOUNCING;
    SetRelAlarm(Poll, MS(5), MS(5));
  }
}

static void step(void)
{
  switch (state) {
  case BOUNCING:
    if (!level()) {
      state = OPEN;
      CancelAlarm(Poll);
      return;
    }
    if (++count < 4)
      return;
    state = CLOSED;
    ActivateTask(Pressed);
    break;
  case CLOSED:
    if (level()) {
      if (++count == 200)
        ActivateTask(Held);
      return;
    }
    state = OPEN;
    count = 0;
    CancelAlarm(Poll);
    break;
  default:
    break;
  }
}

TASK(Debounce) { step(); TerminateTask(); }
TASK(Pressed) { TerminateTask(); }
TASK(Held) { TerminateTask(); }
