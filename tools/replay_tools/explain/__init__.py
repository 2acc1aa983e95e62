"""What a rejection of the program means: the field that is at fault, the line around it, and what to do. It decides
nothing: the verdict is the program's."""
