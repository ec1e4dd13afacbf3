"""What all tools share: how they end, what they print, and how names are compared."""
