"""The parts of tools/edits: what a check names functions by is in `names`, libraries that are built are in `crates`, edits
are read in `edits`, the record is kept in `record`, and edits are tried in `tries`."""
