// two names of one symbol, a name without its prefix, and names of no symbol
#if ENABLE_CLOCK && CONFIG_SLOTS >= 4 && FAST && ENABLE_SLOW
#elif defined(CONFIG_CLOCK) && ENABLE_SLOTS && __GNUC__ && ENABLE_SLOW /* CONFIG_FAST */
#endif
