"""Requests and bases at random. The same source of random numbers makes the same ones.

    legal      sequences of requests that make sense over the database as it is by then
    broken     requests, bodies and heads with faults
    large      a few fixed inputs near the limits
    trees      documents whose revisions make trees
    bases      what histories begin from
"""
