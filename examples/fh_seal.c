/* fh_seal.h and fh_hello.h as a library for programs in other languages (examples/build). */
#define FH_SEAL_API
#include "fh_hello.h"
