"""kubelet-replay import: a trace from what a node keeps by itself, the journals of its kubelet and of its runtime."""
