"""Tests of the package gbkeep, and what they share. `make test` runs them; by hand, with `PYTHONPATH=python:.` at the top of the clone:

    python3 -m gbkeep_tests.test_slots bin/gbkeep [TEST..]"""
