"""What all packages of this one use: checks of arguments, files that appear whole, text that is safe to show, signals. Tested, not proved."""
