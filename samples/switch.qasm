// A switch over a measured syndrome.
OPENQASM 3.1;
include "stdgates.inc";
qubit[3] data;
bit[2] syndrome;
int s = int[2](syndrome);
switch (s) {
    case 1 {
        x data[0];
    }
    case 2, 3 {
        x data[1];
        z data[1];
    }
    default {
        x data[2];
    }
}
