"""The bays of a machine on one page: which there are, what their servers and the journal tell."""
