// Broken: an array type is cut off after a comma, where the crate spins to its step limit.
int n = 2;
array[int[8],
