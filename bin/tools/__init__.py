"""What the commands of bin/ share: the list of crates, the stamp of sources, the program and its building, and the
parts of the test."""
