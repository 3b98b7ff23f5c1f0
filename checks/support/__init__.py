"""What the checks share: running the built program, the rows, a malloc that refuses, and the trial of wrong bodies."""
