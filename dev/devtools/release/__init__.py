"""A release: what it holds, the Debian package, and what was proved and run for it."""
