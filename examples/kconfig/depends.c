#if CONFIG_STAMP && \
    !CONFIG_QUICK
#endif
