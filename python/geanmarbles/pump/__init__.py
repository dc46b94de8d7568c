"""The pump: many clients' sockets on one side, one program on the other."""
