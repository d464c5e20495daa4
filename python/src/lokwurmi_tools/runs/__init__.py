"""What a run shows: the jobs, the passages and the effect chains of a recorded or simulated schedule.
Bounds aren't computed here; pictures of runs are in `pictures`."""
