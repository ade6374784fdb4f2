"""The pages of the manual and the completions of the shells, made of what the built program says of itself."""
