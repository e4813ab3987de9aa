/* What tests/driver.c hands to the library that it is linked with: tests/NAME_calls.c makes the call. */
#ifndef DRIVER_H
#define DRIVER_H

#include <stddef.h>
#include <stdint.h>

/* An argument of a request: a number, or the slice that is lent. */
struct argument {
    uint64_t number;
    uint8_t *bytes;
    size_t length;
};

/* Calls the library's function of this number. There is none: ends the driver by no_function. */
uint64_t call(uint64_t function, const struct argument *a);

_Noreturn void no_function(void);

#endif
