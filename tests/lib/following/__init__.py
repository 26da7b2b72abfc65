"""Clients that follow the changes of some documents beside the one who writes, and what they must get.

    plan      the writes, made up before they are sent, and the rows and pages at each place
    clients   the writer, those who follow by long polls, and those who follow by feeds that go on
    quiet     those who wait while other documents change
    busy      many clients at once, and those who follow all documents or some
    checked   a server and connections to it, whose lines and positions are checked
"""
