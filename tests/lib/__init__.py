"""What the tests share. A script is run by its path, as `python3 tests/test_fuzz.py`, so `lib` and `reference` are found beside
it.

    checks         the count of what passed and failed
    programs       the built programs, runs of them, and the arguments of a script
    requests       requests as bytes
    messages       responses and requests that come over a socket or a pipe
    server         a running `couchd serve`, and connections to it
    journals       the folder of a journal
    marks          the mark of such a folder
    disks          what a disk may hold after a power failure, by the log of a process
    ledgers        what clients sent and were answered, and whether a server holds all of that
    durability     what is left of answered writes behind each end of a server over a journal
    ends           ends of a replication: one that answers by a script, and a proxy in front of a server
    replicas       servers as the ends of replications
    audits         runs of `couchd dump`, `replay check` and `replay base`
    transcripts    the stored requests and the responses to them
    differential   the program and the second reading on the same requests
    shims          libraries that are loaded in front of the C library
    refusals       runs with requests for memory refused
    refused_rows   rows of statements whose requests for memory are refused
    based_dumps    dumps whose history begins from a base
    crates         the crates, as crates.txt has them
    documents      the documents, and which of them are written by hand
    steps          the steps of tests/all
    generators     requests and bases at random
    following      clients that follow some documents
"""
