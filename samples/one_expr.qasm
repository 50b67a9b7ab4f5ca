// One expression, with the operators of the specification.
a & b == c << 2 + -d
