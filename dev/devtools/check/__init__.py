"""Parts of dev/check that serve a bay: the panel, sessions of clients and their captures."""
