"""What bin/sweep sweeps over: a module for each kind of sweep, and what they share."""
