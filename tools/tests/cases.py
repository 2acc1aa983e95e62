"""Test functions as unittest has them: a case of each module, whose methods are its functions. Each comparison of them
is a sub-test, so that one that fails hides none after it."""

import contextlib
import fnmatch
import os
import signal
import sys
import tempfile
import unittest

PREFIX = "test_"


class Differs(AssertionError):
    """A check that fails; its text has the check's name, and the first line that differs."""


class Case(unittest.TestCase):
    """The tests of a module, of which each is one function. What a test has started ends with it where it raises."""

    running = None
    kept = None

    @property
    def name(self):
        """The name of the function."""
        return self._testMethodName

    @property
    def whole_name(self):
        """The name after the module's name, since functions of two modules may have one name."""
        return f"{type(self).__module__}.{self.name}"

    def of_function(self, function):
        """Runs a function; without the program one that asked it is left out, and nothing of it counts."""
        import checks
        before, Case.running = Case.running, self
        try:
            if checks.WITHOUT_PROGRAM:
                self.without_program(function)
            else:
                function()
        except (Exception, SystemExit):
            end_children()
            raise
        finally:
            Case.running = before

    def without_program(self, function):
        """Runs a function, and keeps what it compares until it is known whether it asked the program."""
        self.kept = kept = []
        with tempfile.TemporaryDirectory() as folder:
            os.environ["ASKED"] = f"{folder}/asked"
            try:
                function()
            finally:
                self.kept = None
                if os.path.exists(f"{folder}/asked"):
                    raise unittest.SkipTest("it asks the program")
                for name, difference in kept:
                    self.tell(name, difference)

    def check(self, name, difference):
        """A comparison of a name, and how what it got differs, if it does."""
        if self.kept is None:
            self.tell(name, difference)
        else:
            self.kept.append((name, difference))

    def tell(self, name, difference):
        with self.subTest(name):
            if difference is not None:
                raise Differs(f"{name}\n{difference}")


def check(name, difference):
    """Counts a comparison of the test that runs; without one it raises where it fails."""
    if Case.running is not None:
        Case.running.check(name, difference)
    elif difference is not None:
        raise Differs(f"{name}\n{difference}")


def end_children():
    """Ends what a test has started and left."""
    import ending
    import processes
    for identity in ending.children():
        processes.end_group(identity)
        with contextlib.suppress(OSError):
            os.kill(identity, signal.SIGKILL)
            os.waitpid(identity, 0)


def tests_in(module):
    """The tests of a module, in the order in which they are there."""
    functions = {name: function for name, function in vars(module).items()
                 if name.startswith(PREFIX) and callable(function)}
    methods = {name: method_of(function) for name, function in functions.items()}
    case = type("Tests", (Case,), {**methods, "__module__": module.__name__})
    return [case(name) for name in functions]


def method_of(function):
    def method(self):
        self.of_function(function)
    method.__doc__ = function.__doc__
    return method


def loaded(name):
    """What unittest asks a module of this name for: its tests, or those that fit the patterns of -k."""
    def load_tests(loader, _, __):
        patterns = loader.testNamePatterns
        return unittest.TestSuite(test for test in tests_in(sys.modules[name]) if not patterns
                                  or any(fnmatch.fnmatchcase(test.id(), pattern) for pattern in patterns))
    return load_tests
