// Microseconds are `us`. The micro sign is no token: two bytes, an error for each, and a name behind them.
OPENQASM 3.0;
qubit q;
duration short = 5us;
delay[2.5us] q;
duration long = 5µs;
delay[5 µs] q;
