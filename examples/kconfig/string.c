#ifdef CONFIG_TITLE
#elif CONFIG_LONG
#endif
