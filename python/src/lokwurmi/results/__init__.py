"""The answers of calls as objects: reports, runs, effect chains, verdicts, differences, and how a notebook shows them.
Nothing here calls the program."""
