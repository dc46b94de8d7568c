"""The program as its clients see it: lines that are sent, replies, the log, and the rules of refusals."""
