"""The words of each command, and the typed options that they make: here alone is argparse known.
All that computes, draws, searches or writes stands in the other rooms, and takes these options."""
