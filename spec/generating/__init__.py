"""What `spec/generate.py` writes, a module for each file."""
