"""Files and frames at random, from a seed."""
