// Broken: a set is left open at the end of the file, where the crate panics.
for int i in {1, 2
