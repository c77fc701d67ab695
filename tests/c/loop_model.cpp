/* loop_model.c as C++. */
#include "loop_model.c"
