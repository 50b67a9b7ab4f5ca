// Broken for the crate: its `=` binds tighter than any operator, so an assignment ends before the `+`.
int a = 1;
int b = 2;
a = a + b;
