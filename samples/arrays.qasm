// Arrays and indexing, aliases and joined registers.
OPENQASM 3.0;
array[int[8], 4] counts;
array[float[64], 2, 3] grid;
counts[0] = counts[1];
grid[1, 2] = 0.5;
int sum = counts[0] + counts[1] * counts[2];
qubit[4] q;
let pair = q[0:1];
let both = q[{0, 2}] ++ q[3:3];
let odd = q[1:2:3];
def total(array[int[8], 4] list) -> int {
    return list[0] + list[1];
}
