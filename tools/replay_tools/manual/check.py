"""The details of kubelet-replay check."""

TEXT = """\
It gives the trace to the proved program, which prints ok with the numbers of pods and ticks, or the first faulty line
and the fault. It passes --extended to the program if the trace's node line has version 3; with the option --extended it
does so for every trace. It unpacks a trace that gzip has packed. Without -f it reads the trace on standard input, and
an argument that is no option is a FILE too. Of several files, or of a folder, each line begins with the name of its
trace.

If the program rejects a trace, one more line has the meaning of the fault; kubelet-replay explain has it in full.

It needs python3 and the program (KUBELET_REPLAY names another one). It leaves out the faults after the first, and
traces of a folder whose names do not end with .trace, .trace.gz or .trace.part.

Status 0: each file is a trace; 1: the program failed, as without memory, or standard output takes no more; 2: a wrong
argument, a file that can't be read, or a rejected trace; 127: a command is missing. Of several traces it is the
greatest.
"""
