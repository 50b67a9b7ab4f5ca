// A ripple-carry adder: b becomes a + b, and the carry goes into one more qubit.
OPENQASM 3.0;
include "stdgates.inc";

gate majority x, y, z {
    cx z, y;
    cx z, x;
    ccx x, y, z;
}

gate unmajority x, y, z {
    ccx x, y, z;
    cx z, x;
    cx x, y;
}

const uint[8] width = 4;
uint[4] left = 1;
uint[4] right = 15;
qubit carry_in;
qubit[4] a;
qubit[4] b;
qubit carry_out;
bit[5] sum;

// Sets the registers to the two numbers.
reset carry_in;
reset a;
reset b;
reset carry_out;
for uint[8] i in [0:width - 1] {
    if (bool(left[i])) {
        x a[i];
    }
    if (bool(right[i])) {
        x b[i];
    }
}

// Adds, and takes the carries back.
majority carry_in, b[0], a[0];
for uint[8] i in [0:width - 2] {
    majority a[i], b[i + 1], a[i + 1];
}
cx a[width - 1], carry_out;
for uint[8] i in [width - 2:-1:0] {
    unmajority a[i], b[i + 1], a[i + 1];
}
unmajority carry_in, b[0], a[0];

sum[0:3] = measure b;
sum[4] = measure carry_out;
