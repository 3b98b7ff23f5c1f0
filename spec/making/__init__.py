"""How `spec/lsp.json` is made: a reader for each source, what is written by hand, and how these are joined."""
