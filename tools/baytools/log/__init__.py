"""What tools/log is made of: lines of logs, what bayctl and stunnel say in them, the links that
both tell of, and a digest of a span as text and as a page."""
