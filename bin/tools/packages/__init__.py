"""The packages of a release, each made of the files that are checked in: the same sources give the same packages, byte for byte."""
