/* suitesparse/amd.h: the header amd.h, for programs that include <suitesparse/amd.h>, as Debian has SuiteSparse's headers. */
#include "../amd.h"
