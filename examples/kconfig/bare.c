#ifndef STAMP
#elif FAST
#endif
