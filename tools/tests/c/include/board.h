#ifndef BOARD_H
#define BOARD_H

#define QUEUE 4

typedef struct { int value; int is_valid; } Reading;

extern volatile int adc_register;
extern int queued;

int queue_put(Reading reading);
void wake(TaskType task);

#endif
