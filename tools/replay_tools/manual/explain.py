"""The details of kubelet-replay explain."""

TEXT = """\
It asks the program to check a trace, and prints what the answer means: the field at fault, the line around it, cut and
without control characters, and what to do. For a file that can't be read it prints the reason, and for another kind of
file, as a report or an archive, what it is. It unpacks a trace that gzip has packed. It reads a trace of the extended
format as the standard one, as the program without --extended does, and then with --extended. With --line it prints all
in one line, as the other tools do after an error. Without -f it reads standard input, and an argument that is no option
is a FILE too. Of several files, or of a folder, it explains each trace by itself; the lines of
--line then begin with the name of the trace.

It needs python3 and the program (KUBELET_REPLAY names another one). It decides nothing: the verdict is the program's.
If it can't find the field, it prints what docs/formats.md has about the fault. It leaves out the faults after the
first, except the faults of the node line.

Status 0: done, also for a file that is no trace; 1: the program failed, as without memory, or standard output takes no
more; 2: a wrong argument, a file that is not there or can't be read; 127: a command is missing.
"""
