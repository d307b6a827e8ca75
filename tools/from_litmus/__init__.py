"""Litmus tests in herd's format, as programs and logs of this project. Not proved.

`source` splits a test into its parts and tokens, `x86` and `c` read its threads, `conditions` reads its initial and final states,
`statements` has what they read, `programs` prints it as a program, and `logs` writes a log for each way that its threads can go.
"""
