"""The traces or reports of one node, in the order of their times, as one trace and one report."""
