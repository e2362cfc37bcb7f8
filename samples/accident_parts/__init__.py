"""The parts of samples/accident: its day, the trees, the runs, the page."""
