#ifdef CONFIG_FAST
#elif defined(CONFIG_SAFE)
#endif
