/* Frames are taken out of a controller until it is empty, and handed on under a resource. */
#include "ee.h"

#define BUFFER_LOCK()   GetResource(Buffer)
#define BUFFER_UNLOCK() ReleaseResource(Buffer)

typedef struct { unsigned id; unsigned char data[8]; } Frame;

extern int can_pending(void);
extern Frame can_read(void);

static Frame frames[16];
static int first, last;

static int is_full(void) { return (last + 1) % 16 == first; }

static int put(Frame frame)
{
  if (is_full())
    return -1;
  frames[last] = frame;
  last = (last + 1) % 16;
  return 0;
}

ISR(CanRx)
{
  while (can_pending()) {
    if (put(can_read()) != 0)
      break;
    SetEvent(Handler, Received);
  }
}

TASK(Handler)
{
  while (1) {
    WaitEvent(Received);
    ClearEvent(Received);
    BUFFER_LOCK();
    for (int k = first; k != last; k = (k + 1) % 16)
      if (frames[k].id < 0x100)
        ActivateTask(Gateway);
    BUFFER_UNLOCK();
  }
}

TASK(Gateway)
{
  BUFFER_LOCK();
  first = (first + 1) % 16;
  BUFFER_UNLOCK();
  TerminateTask();
}
