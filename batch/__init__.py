"""las-batch: runs `las` over many files, and keeps in a database what was made from what."""
