"""Many traces at once: a report for each, and the tables of all in one database."""
