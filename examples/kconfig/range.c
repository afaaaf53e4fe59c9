#if CONFIG_FAST && CONFIG_RATE > 4
#elif CONFIG_BASE == 16
#endif
