"""What `record` is made of: sources that are asked, and a core that makes a trace of their answers."""
