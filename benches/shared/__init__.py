"""What the benches share. It makes `lib` of the tests known, so it comes first among the imports.

    ratios    ratios that a bench measures, and the stored ones that they are compared with
    figures   what the plots show, as it was measured
    plots     draws these
    pipe      a run of `couchd once` that is timed over pipes
    machine   what processes have used
    relay     a server that is far away
"""
import os
import sys

BENCHES = os.path.dirname(os.path.dirname(os.path.abspath(__file__)))
sys.path.append(os.path.join(os.path.dirname(BENCHES), "tests"))
