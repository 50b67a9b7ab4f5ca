// Broken: a brace too many, and a statement after it.
qubit q;
if (true) {
    x q;
}
}
reset q;
