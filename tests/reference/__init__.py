"""An independent reading of the whole store and of its HTTP texts, in plain Python.

It is written from CouchDB's documentation and this project's profile of it, in the order in which a reader meets the
rules, and shares nothing with the program: `once.run(data)` gives the bytes that `couchd once` must write for
these bytes of input, and its exit status. Speed is no aim: it has sets, whole lists and sorting where the program has
indexes.

    json_profile   JSON values, bodies, their compact texts
    revisions      identities of revisions
    trees          a document's revisions: leaves, winner, graft, stem, cut, strip
    database       commands: edits, merges, local documents, purges, both limits, compactions
    compactions    a compaction in slices, beside which the database goes on
    queries        answers: documents, open revisions, changes, differences, counts
    framing        bytes of a connection cut into requests
    targets        routes, ids and parameters of a request
    bodies         what a request's body must be
    actions        each route's answer
    responses      the texts of responses
    once           a whole run
    forms          values in the lines of a dump, and their ranges
    bases          what a history begins from, as the first line of its dump
    history        dumps: the text of a history, whether a text is the dump of a legal one, and the base of the next one
    epochs         histories that go on from one another: which follows which
    versions       rows of commands, queries and a follower
    copies         rows of compactions that are made by slices
    worlds         rows of interleavings
    containers     rows of maps, lists, trees and runs
    dump_rows      rows of dumps that begin from a base
    rows           how rows are read

A route that the program doesn't have is answered as if it were not there.
"""
