#if CONFIG_FAST
#endif
