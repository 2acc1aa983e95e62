"""Makes a page of a report: what it shows, and the file."""
