#define _POSIX_C_SOURCE 200809L
#include "stack.h"

#include <pthread.h>
#include <stdio.h>
#include <stdlib.h>
#include <string.h>

enum { STACK_BYTES = 8 << 20, PAINT = 0xA5 };

static _Alignas(4096) uint8_t stack[STACK_BYTES];

struct call {
    key_function *key;
    const uint8_t *job;
    size_t job_length;
    uint8_t *result;
    size_t result_length;
    uintptr_t caller;   /* a place in the caller's own stack */
};

static void *make_call(void *argument)
{
    struct call *call = argument;
    call->caller = (uintptr_t)&call;
    call->key(call->job, call->job_length, call->result, call->result_length);
    return NULL;
}

static void require(int error)
{
    if (error == 0)
        return;
    fprintf(stderr, "stack: %s\n", strerror(error));
    exit(1);
}

/* The call is made on a thread whose stack was painted: the lowest byte without paint is the deepest. */
size_t stack_used(key_function *key, const uint8_t *job, size_t job_length, uint8_t *result,
                  size_t result_length)
{
    struct call call = {key, job, job_length, result, result_length, 0};
    pthread_attr_t attributes;
    pthread_t thread;
    memset(stack, PAINT, STACK_BYTES);
    require(pthread_attr_init(&attributes));
    require(pthread_attr_setstack(&attributes, stack, STACK_BYTES));
    require(pthread_create(&thread, &attributes, make_call, &call));
    require(pthread_join(thread, NULL));
    pthread_attr_destroy(&attributes);
    const uint8_t *deepest = stack;
    while (*deepest == PAINT)
        deepest++;
    return call.caller - (uintptr_t)deepest;
}
