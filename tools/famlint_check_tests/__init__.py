"""Tests of famlint-check over a toy famlint. tools/check-famlint-check runs them."""
