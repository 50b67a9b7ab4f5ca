// Broken: an expression in 64 parentheses, one more call of `expr_bp` than may be unfinished.
((((((((((((((((((((((((((((((((((((((((((((((((((((((((((((((((a))))))))))))))))))))))))))))))))))))))))))))))))))))))))))))))))
