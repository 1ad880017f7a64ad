"""What checks/pages counts."""


class Tell:
    """Called with a name and whether it holds."""

    def __init__(self):
        self.passed = self.failed = 0

    def __call__(self, name, holds):
        if holds:
            self.passed += 1
        else:
            self.failed += 1
            print(f'{name}: failed', flush=True)
