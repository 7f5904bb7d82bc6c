"""What `idlc`, `verify`, `package`, `tests/run` and `benchmark/run` share."""
