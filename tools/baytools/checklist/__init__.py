"""What must be seen before a bay goes into a network: on its machine, and from another one."""
