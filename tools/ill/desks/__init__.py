"""The parts of tools/desks, which try desks of the built program.

`reads` runs each command that reads a desk; `rounds` performs random scripts of desks; `at_once` runs several commands
on one desk at once.
"""
