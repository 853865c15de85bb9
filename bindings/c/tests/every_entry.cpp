// The same program as C++.
#include "every_entry.c"
