"""What scripts/show is made of: a model of the machine in Python, and pictures of a run.

The model (words, trace, state, rules, replies, effects, history, replay, report) was written from docs/MACHINE.md and
docs/FORMATS.md and shares no code with the program, so that scripts/test-show can compare the two.
"""
