// Broken: the file ends inside a block.
qubit q;
while (true) {
    x q;
    if (ready) {
        break;
