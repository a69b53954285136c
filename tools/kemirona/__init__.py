"""What the tools share: the trace language, the report, the sizes, and how bad input is told."""
