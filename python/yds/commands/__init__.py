"""The commands: each module has one main(words), which gives the exit status."""
