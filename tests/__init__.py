"""The tests that need no built program: tests/tools of the commands, tests/repository of documents,
sources and the gate. At the top of the repository:

    python3 -B -m unittest discover -s tests -t .
    python3 -B -m unittest tests.tools.test_panel"""
import pathlib
import sys

TOP = pathlib.Path(__file__).resolve().parent.parent
sys.path[:0] = [str(TOP / 'tools'), str(TOP / 'dev')]
