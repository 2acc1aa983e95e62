"""The recorders of a cluster: which nodes record, and their traces."""
