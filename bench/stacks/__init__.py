"""What bench/stack is made of: the listing of an archive, the frames of its functions, and the paths through its calls."""
