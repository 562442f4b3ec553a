/* The functions on logs that are compared. */
#include "log_calls.h"

#define FUNCTION_ROW(name) &name##_function,

const compared *const functions[] = {EVERY_FUNCTION(FUNCTION_ROW)};
const size_t function_count = sizeof functions / sizeof *functions, run_most = 100000;
