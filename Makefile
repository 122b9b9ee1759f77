# SPDX-License-Identifier: MIT
# What to run first. `make` alone prints both targets. tools/dev has more.
#   make demo       builds the program `segrun` without proofs, and runs a first script
#   make check      what has to pass before a change lands: .ci/run
# Both need the command `rt` of the Rattle kit.

.PHONY: help demo check

help:
	@echo 'make demo    builds segrun without proofs and runs a script of three lines, in about a minute'
	@echo 'make check   proves and tests everything, as .ci/run does, in over an hour on four processors'

demo:
	@tools/dev demo

check:
	@.ci/run
