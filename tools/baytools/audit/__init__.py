"""What tools/audit is made of: what is looked at, the replays, the judging of rules, the matrix of
releases and the report."""
