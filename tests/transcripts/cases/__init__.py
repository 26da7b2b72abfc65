"""What the transcripts ask, as lists of requests. Each module has one folder's or more."""
