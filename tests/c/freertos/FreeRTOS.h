/* What examples/c/freertos.c uses of FreeRTOS, with its names and types: FreeRTOS.h, semphr.h and task.h in one. kernel.c
 * plays the kernel. */
#ifndef FREERTOS_STUB_H
#define FREERTOS_STUB_H

#include <stddef.h>
#include <stdint.h>

typedef uint32_t TickType_t, StackType_t;
typedef long BaseType_t;
typedef unsigned long UBaseType_t;
typedef struct task *TaskHandle_t;
typedef struct semaphore *SemaphoreHandle_t;
typedef void (*TaskFunction_t)(void *);

#define portMAX_DELAY ((TickType_t)0xffffffff)
#define pdTRUE ((BaseType_t)1)
#define pdPASS pdTRUE
#define configMINIMAL_STACK_SIZE ((uint16_t)128)
#define configSTACK_DEPTH_TYPE uint16_t

TickType_t xTaskGetTickCount(void);
BaseType_t xTaskCreate(TaskFunction_t code, const char *name, configSTACK_DEPTH_TYPE depth, void *parameters, UBaseType_t priority,
                       TaskHandle_t *created);
BaseType_t xTaskNotifyGive(TaskHandle_t task);
uint32_t ulTaskNotifyTake(BaseType_t clears, TickType_t most);
SemaphoreHandle_t xSemaphoreCreateMutex(void);
BaseType_t xSemaphoreTake(SemaphoreHandle_t semaphore, TickType_t most);
BaseType_t xSemaphoreGive(SemaphoreHandle_t semaphore);
void *pvPortMalloc(size_t size);
void vPortFree(void *block);

#endif
