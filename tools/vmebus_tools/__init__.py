"""What the tools of this folder have in common: calls of the program, and how it spells what they draw."""
