"""The built program, for tests that run it: GRASPAN of the environment, or the one that ./graspan has built."""
import os
import subprocess
import unittest

TOP = os.path.dirname(os.path.dirname(os.path.dirname(os.path.abspath(__file__))))
TOOLS = os.path.join(TOP, 'tools')
PROGRAM = os.environ.get('GRASPAN') or os.path.join(TOP, 'crates', 'graspan', 'out', 'graspan')

needs_program = unittest.skipUnless(os.access(PROGRAM, os.X_OK), 'no built program: call ./graspan --version first')


def graspan(words, folder, **more):
    return subprocess.run([PROGRAM] + words, cwd=folder, capture_output=True, text=True, **more)
