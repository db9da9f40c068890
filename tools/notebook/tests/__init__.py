"""The tests that tools/notebook/check runs."""
