"""What `docs/make.py` is made of.

    rust           the sources of a crate: its docs, and its public calls with their contracts
    definitions    the definitions that contracts cite, and which files these need
    edits          the wrong bodies that the prover must refuse
    markdown       docs as Markdown
    crate_page     the page of a crate
    index_page     the index of the crates, with their pictures
    closure        the definitions and types that a contract needs
    reading_page   the files that one reads to believe a theorem
    regions        the pictures and tables in written documents
"""
