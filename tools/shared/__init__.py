"""What the tools share: how they end, how they run the program, which heads a trace may have, and how their pages are made."""
