"""What tools/diagnose is made of: the table of faults, and where a bay file, a program or a line of
a trace is refused."""
