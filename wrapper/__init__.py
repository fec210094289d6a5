"""The modules behind `./spin`: where the program is, how it is built, and the wrapper's own commands."""
