"""What scripts/watched-runs and scripts/random-runs are made of: they run the program on many random traces, and judge what it writes.

The judgement goes by the model in `showing`, which shares no code with the program, and by the program's own `check`.
"""
