/* The first program of a board: an LED that an alarm makes blink. */
#include "tpl_os.h"

extern void ledToggle(int led);

DeclareTask(blink);

int main(void)
{
  StartOS(std);
  return 0;
}

TASK(blink)
{
  ledToggle(0);
  TerminateTask();
}
