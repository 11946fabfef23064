"""The checks of tests/run, by what they do: each gives a list CASES of functions that answer what is wrong."""
