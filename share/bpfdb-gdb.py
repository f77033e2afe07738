# bpfdb in gdb 13 or later: 'source bpfdb-gdb.py', then 'bpf-load FILE', or 'file' and 'target remote | bpfdb gdb FILE' by hand.
#
# What it does stands in connector.py of the package bpfdb, which lies beside this file, or around it where both are installed: gdb obeys what it
# sources among the names of its user, and none of bpfdb's is left there.
def connect_bpfdb():
    import os
    import sys
    here = os.path.dirname(os.path.abspath(__file__))
    sys.path.append(here if os.path.isdir(os.path.join(here, "bpfdb")) else os.path.dirname(here))
    writes, sys.dont_write_bytecode = sys.dont_write_bytecode, True
    try:
        import bpfdb.connector
    finally:
        sys.dont_write_bytecode = writes


connect_bpfdb()
del connect_bpfdb
