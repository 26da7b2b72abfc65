"""What is left of answered writes behind each end of a server over a journal.

    given     the programs, the shim and what is counted
    syncs     when writes are appended and synced, and when they are answered
    kills     the end of the process, by each signal
    power     the end of the machine: what a disk may have
    faults    file operations that fail, or are the last that a process makes
    names     files and folders whose names must be on the disk
    torn      damaged files, and their repair
    locks     one server a folder
"""
