"""The modules of kconfig-model."""
